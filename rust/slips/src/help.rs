//! What `slips help` and `slips COMMAND --help` say, in 80 columns.
use crate::COMMANDS;

/// What stands behind the commands.
const REST: &str = "  help [COMMAND]          this text, or a command's part of it: COMMAND --help
  --version               the tool's version

An image file holds the bare image, as a chip is dumped; an address is a place
in the file. Its shape stands beside it in FILE.shape: a line each for start,
page, word and pages, in bytes. --start, --page, --word and --pages on any
command stand over that file, and make it unnecessary; push, pop and erase
refuse what contradicts it, without --force. Where the number of pages is not
known, the range goes as far as whole pages do. Numbers are decimal, 4k is 4096,
0x10 is 16. A link is followed first: FILE.shape stands beside the real file.

peek, list, map, space, fit and guess never change a file: they work on a copy
in memory. push, pop and erase change only a writable regular file; the new
image is written to a temporary file in the same folder, which takes the old
one's name, mode and owner. pop shows its slip first: what cannot be shown is
not taken. An image is written after a refusal too, if the call made stores
before it. Without --force two calls leave the file as it was: a pop that
answers empty and would erase a page with bytes that are neither FF nor
readable, and a push or pop that would erase a page where most pages have marks
of another shape.

A slip is shown in quotes if it is text, else in hexadecimal without quotes.
What is no part of the answer, as bytes that are neither FF nor readable, is
said on the standard error.

Exit status: 0 done, or document 01's number of the refusal
   1 empty                         2 ItemTooBig          3 FullStorage
   4 BufferTooSmall                5 Corrupted           7 Cut
   9 BadGeometry                  10 StartRangeNotAtPageBoundary
  11 EndRangeNotAtPageBoundary    12 RangeTooSmall      13 PagesTooSmall
  14 WordSizeTooLarge             15 BadWord            16 TooLarge
  17 OutsideImage
or the tool's own
  64 a wrong command line         65 no shape, or a wrong one
  66 a file cannot be read        69 the tool cannot be built
  70 torture found a wrong list   73 the file is there already
  74 a file, or the answer, cannot be written
 130 torture was stopped by Ctrl-C";

pub const NEW: &str = "  new FILE --page N --word N --pages N [--start N]
                          makes an erased image, and FILE.shape";
pub const PUSH: &str = "  push FILE TEXT          adds a slip behind the last one
    --hex DIGITS            the slip in hexadecimal, in place of TEXT
    --file PATH             the slip from a file; - is the standard input
    --overwrite             a full queue makes room by erasing its oldest page
    --limit N               at most N stores: cuts the push as a flat battery
                            does
    --force                 though an option contradicts FILE.shape, or a page
                            with marks of another shape is erased";
pub const POP: &str = "  pop FILE                shows the oldest slip and takes it from the queue
    --hex, --raw            in hexadecimal; its bare bytes
    --buffer N              as a terminal with a buffer of N bytes pops
                            (default: a page)
    --limit N               at most N stores
    --force                 though an option contradicts FILE.shape, or a page
                            that is not readable is erased";
pub const PEEK: &str = "  peek FILE               shows the oldest slip
    --hex, --raw, --buffer N
                            as for pop";
pub const LIST: &str =
    "  list FILE               shows all slips that wait, the oldest first, and on
                          the standard error what is passed by
    --raw                   the slips on every page, popped and torn ones too,
                            whatever the marks say
    --hex, --json           in hexadecimal; as JSON";
pub const MAP: &str =
    "  map FILE                draws the pages, and says which are oldest and current
    --items [--hex]         lists the slips on each, popped and torn ones too
    --json                  as JSON, with the slips";
pub const SPACE: &str =
    "  space FILE [--json]     the bytes left over all pages, headers of slips to
                          come included";
pub const FIT: &str =
    "  fit FILE                the crate's find_max_fit: the bytes that a page has
                          for the next slip, or none";
pub const GUESS: &str =
    "  guess FILE              tries shapes, and shows those that read well, the best
                          first; a number that is given, as --word N, is kept";
pub const ERASE: &str = "  erase FILE              erases the whole range
    --limit N               at most N stores
    --force                 though an option contradicts FILE.shape";
pub const TORTURE: &str =
    "  torture                 plays random calls, cuts each at every store, and
                          holds the list against a plain one; a large queue is
                          filled by calls between that are not cut; Ctrl-C
                          ends it
    --seed N, --calls N     default 1 and 20000; one seed always gives the same
                            calls
    --page, --word, --pages, --start N
                            what is not given is rolled for each history";

pub fn all() -> String {
    let commands: Vec<&str> = COMMANDS.iter().map(|command| command.help).collect();
    format!("usage: slips COMMAND ..\n\n{}\n{REST}", commands.join("\n"))
}

/// A command's part of the text.
pub fn of(help: &str) -> String {
    format!("usage: slips COMMAND ..\n\n{help}\n\n`slips help` says more.")
}

#[cfg(test)]
mod tests {
    #[test]
    fn the_help_has_80_columns() {
        for line in super::all().lines() {
            assert!(line.len() <= 80, "{line}");
        }
    }
}
