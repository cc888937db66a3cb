//! What a reader sees: slips, counts, and the lines on both outputs.
use crate::failure::Failure;
use crate::system;
use std::io::{ErrorKind, Write, stderr, stdout};

/// Text in quotes, where the bytes are text; otherwise hexadecimal digits without quotes.
pub fn shown(slip: &[u8], in_hex: bool) -> String {
    match text(slip) {
        Some(text) if !in_hex => format!("{text:?}"),
        _ => hex(slip),
    }
}

/// The bytes as text, where they are text that can be read.
pub fn text(slip: &[u8]) -> Option<&str> {
    let is_readable = |text: &&str| {
        !text
            .chars()
            .any(|c| c.is_control() && c != '\n' && c != '\t')
    };
    std::str::from_utf8(slip).ok().filter(is_readable)
}

pub fn hex(bytes: &[u8]) -> String {
    bytes.iter().map(|byte| format!("{byte:02x}")).collect()
}

/// A number and its noun.
pub fn counted(count: usize, one: &str, more: &str) -> String {
    match count {
        1 => format!("1 {one}"),
        _ => format!("{count} {more}"),
    }
}

/// The columns that a number takes.
pub fn digits(number: usize) -> usize {
    number.to_string().len()
}

/// A length in columns, as a line of a list begins.
pub fn length(length: u32) -> String {
    let noun = if length == 1 { "byte" } else { "bytes" };
    format!("{length:5} {noun:5}")
}

/// Some pages by their numbers.
pub fn numbered(pages: &[u32]) -> String {
    let numbers: Vec<String> = pages.iter().map(u32::to_string).collect();
    match numbers.len() {
        1 => format!("page {}", numbers[0]),
        0..=12 => format!("pages {}", numbers.join(", ")),
        count => format!("{count} pages, the first {}", numbers[0]),
    }
}

/// A line on the standard output.
pub fn say(line: &str) -> Result<(), Failure> {
    say_bytes(format!("{line}\n").as_bytes())
}

pub fn say_bytes(bytes: &[u8]) -> Result<(), Failure> {
    if system::is_output_closed() {
        return Err(Failure::Write("standard output: it is closed".into()));
    }
    let mut out = stdout().lock();
    let written = out.write_all(bytes).and_then(|()| out.flush());
    written.map_err(|error| match error.kind() {
        ErrorKind::BrokenPipe => Failure::Closed,
        _ => Failure::Write(format!("standard output: {error}")),
    })
}

/// A line on the standard error, for what is no part of the answer.
pub fn note(line: &str) {
    // there is nobody to tell where this fails
    let _ = writeln!(stderr(), "slips: {line}");
}

#[cfg(test)]
mod tests {
    use super::*;

    #[test]
    fn text_is_quoted_and_bytes_are_not() {
        assert_eq!(shown("Möser".as_bytes(), false), "\"Möser\"");
        assert_eq!(shown(b"", false), "\"\"");
        assert_eq!(shown(b"a\"\n", false), "\"a\\\"\\n\"");
        assert_eq!(shown(b"a\0", false), "6100");
        assert_eq!(shown(&[0xff], false), "ff");
        assert_eq!(shown(b"a", true), "61");
    }
}
