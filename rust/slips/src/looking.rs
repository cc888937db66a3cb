//! The commands that never change a file: they work on a copy in memory.
use crate::arguments::Words;
use crate::failure::Failure;
use crate::file::{self, Stored};
use crate::json::{self, object};
use crate::map;
use crate::page::{note_unreadable, pages};
use crate::refusal::refused;
use crate::shape::Numbers;
use crate::show::{digits, length, note, say, shown};
use crate::slip::Showing;
use crate::storing::queue;
use crate::survey::Survey;
use crate::system;
use std::io::stdout;

pub fn peek(words: Words) -> Result<(), Failure> {
    let given = Numbers::of_words(&words)?;
    let showing = Showing::of_words(&words)?;
    let [name] = words.places(["FILE"])?;
    let mut stored = file::read(name.as_ref(), given)?;
    note_pages(&mut stored);
    let mut buffer = showing.buffer(&stored);
    let answer = queue(&mut stored).peek(&mut buffer);
    match answer {
        Ok(Some(slip)) => showing.say(slip),
        Ok(None) => Err(Failure::Empty),
        Err(error) => Err(refused(error, &mut stored, 0)),
    }
}

fn note_pages(stored: &mut Stored) {
    note_unreadable(&pages(&mut stored.image, stored.shape));
}

pub fn list(words: Words) -> Result<(), Failure> {
    let given = Numbers::of_words(&words)?;
    let (in_hex, raw, in_json) = (words.has("hex"), words.has("raw"), words.has("json"));
    let [name] = words.places(["FILE"])?;
    let mut stored = file::read(name.as_ref(), given)?;
    let survey = Survey::of(&stored.image, stored.shape);
    let passed = survey.passed();
    if in_json {
        say(&json::list(&stored, &survey, raw, &passed))?;
    } else if raw {
        list_pages(&stored, &survey, in_hex)?;
    } else {
        list_slips(&stored, &survey, in_hex)?;
    }
    for line in passed {
        note(&line);
    }
    match survey.refusal {
        Some(error) if !raw => {
            // the call that is refused makes its repair first
            let _ = queue(&mut stored).peek(&mut vec![0; survey.shape.page as usize]);
            Err(refused(error, &mut stored, 0))
        }
        _ => Ok(()),
    }
}

fn list_slips(stored: &Stored, survey: &Survey, in_hex: bool) -> Result<(), Failure> {
    let width = digits(survey.list.len()).max(4);
    for (index, item) in survey.list.iter().enumerate() {
        let payload = stored.payload(item);
        let (length, shown) = (length(item.length), shown(payload, in_hex));
        say(&format!("{:width$} {length}  {shown}", index + 1))?;
    }
    if survey.list.is_empty() && survey.refusal.is_none() {
        note("no slip waits");
    }
    Ok(())
}

/// Every item that reads as one, page by page, whatever the marks say.
fn list_pages(stored: &Stored, survey: &Survey, in_hex: bool) -> Result<(), Failure> {
    let number_width = digits(survey.pages.len() - 1).max(2);
    let address_width = digits(survey.shape.end as usize).max(6);
    for page in &survey.pages {
        for item in &page.items {
            let (length, shown) = (length(item.length), shown(stored.payload(item), in_hex));
            say(&format!(
                "page {:number_width$} at {:address_width$} {length}  {:6}  {shown}",
                page.number, item.address, item.state
            ))?;
        }
    }
    Ok(())
}

pub fn map(words: Words) -> Result<(), Failure> {
    let given = Numbers::of_words(&words)?;
    let (with_items, in_hex, in_json) = (words.has("items"), words.has("hex"), words.has("json"));
    let [name] = words.places(["FILE"])?;
    let stored = file::read(name.as_ref(), given)?;
    let survey = Survey::of(&stored.image, stored.shape);
    if in_json {
        say(&json::map(&stored, &survey))?;
    } else {
        let picture = map::Picture {
            stored: &stored,
            survey: &survey,
            with_items,
            in_hex,
            in_colour: system::is_coloured(&stdout()),
        };
        say(picture.text().trim_end())?;
    }
    note_unreadable(&survey.pages);
    Ok(())
}

pub fn space(words: Words) -> Result<(), Failure> {
    let given = Numbers::of_words(&words)?;
    let in_json = words.has("json");
    let [name] = words.places(["FILE"])?;
    let mut stored = file::read(name.as_ref(), given)?;
    note_pages(&mut stored);
    let answer = queue(&mut stored).space_left();
    let left = answer.map_err(|error| refused(error, &mut stored, 0))?;
    match in_json {
        true => say(&object(&[
            ("file", json::text(&stored.name.to_string_lossy())),
            ("space_left", left.to_string()),
        ])),
        false => say(&left.to_string()),
    }
}

pub fn fit(words: Words) -> Result<(), Failure> {
    let given = Numbers::of_words(&words)?;
    let [name] = words.places(["FILE"])?;
    let mut stored = file::read(name.as_ref(), given)?;
    note_pages(&mut stored);
    let answer = queue(&mut stored).find_max_fit();
    let fit = answer.map_err(|error| refused(error, &mut stored, 0))?;
    say(&fit.map_or("none".into(), |fit| fit.to_string()))
}
