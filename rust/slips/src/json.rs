//! Answers as JSON.
use crate::file::Stored;
use crate::page::Page;
use crate::show::hex;
use crate::survey::Survey;
use slipq::Item;

/// A text in quotes.
pub fn text(text: &str) -> String {
    let mut quoted = String::from('"');
    for character in text.chars() {
        match character {
            '"' | '\\' => quoted.extend(['\\', character]),
            '\u{20}'.. => quoted.push(character),
            _ => quoted.push_str(&format!("\\u{:04x}", u32::from(character))),
        }
    }
    quoted + "\""
}

pub fn object(fields: &[(&str, String)]) -> String {
    let field = |(name, value): &(&str, String)| format!("{}: {value}", text(name));
    let fields: Vec<String> = fields.iter().map(field).collect();
    format!("{{{}}}", fields.join(", "))
}

/// A list with a line for each of its values.
fn lines(values: impl Iterator<Item = String>) -> String {
    let values: Vec<String> = values.map(|value| format!("\n  {value}")).collect();
    format!("[{}]", values.join(","))
}

fn file(stored: &Stored) -> (&'static str, String) {
    ("file", text(&stored.name.to_string_lossy()))
}

/// The list, or with `raw` every item; and what pops pass by.
pub fn list(stored: &Stored, survey: &Survey, raw: bool, passed: &[String]) -> String {
    let items: Vec<&Item> = match raw {
        true => survey.pages.iter().flat_map(|page| &page.items).collect(),
        false => survey.list.iter().collect(),
    };
    let slips = items.into_iter().map(|found| item(stored, survey, found));
    object(&[
        file(stored),
        ("slips", lines(slips)),
        ("notes", lines(passed.iter().map(|line| text(line)))),
    ])
}

fn item(stored: &Stored, survey: &Survey, item: &Item) -> String {
    let payload = stored.payload(item);
    let page = (item.address - survey.shape.start) / survey.shape.page;
    let as_text = std::str::from_utf8(payload).map_or("null".into(), text);
    object(&[
        ("page", page.to_string()),
        ("address", item.address.to_string()),
        ("length", item.length.to_string()),
        ("state", text(&item.state.to_string())),
        ("on_list", survey.is_on_list(item).to_string()),
        ("text", as_text),
        ("hex", text(&hex(payload))),
    ])
}

/// The shape, and each page with its items.
pub fn map(stored: &Stored, survey: &Survey) -> String {
    let shape = survey.shape;
    let pages = survey.pages.iter().map(|found| page(stored, survey, found));
    object(&[
        file(stored),
        ("start", shape.start.to_string()),
        ("end", shape.end.to_string()),
        ("page_size", shape.page.to_string()),
        ("word_size", shape.word.to_string()),
        ("pages", lines(pages)),
    ])
}

fn page(stored: &Stored, survey: &Survey, page: &Page) -> String {
    let is = |end: fn((u32, u32)) -> u32| survey.ends.map(end) == Some(page.number);
    let items: Vec<String> = page
        .items
        .iter()
        .map(|found| item(stored, survey, found))
        .collect();
    object(&[
        ("page", page.number.to_string()),
        ("address", page.address.to_string()),
        ("state", text(&page.state.to_string())),
        ("is_oldest", is(|ends| ends.0).to_string()),
        ("is_current", is(|ends| ends.1).to_string()),
        ("free", page.left(survey.shape).to_string()),
        ("unreadable", page.unreadable.to_string()),
        ("items", format!("[{}]", items.join(", "))),
    ])
}

#[cfg(test)]
mod tests {
    use super::*;

    #[test]
    fn texts_are_escaped() {
        assert_eq!(text("a\"\\\n\u{7f}ä"), "\"a\\\"\\\\\\u000a\u{7f}ä\"");
        assert_eq!(
            object(&[("a", "1".into()), ("b", "[]".into())]),
            "{\"a\": 1, \"b\": []}"
        );
    }
}
