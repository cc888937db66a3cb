//! The commands that change an image file.
use crate::arguments::Words;
use crate::failure::Failure;
use crate::file::{self, Held, Stored};
use crate::page::{Page, note_unreadable, pages};
use crate::refusal::refused;
use crate::shape::Numbers;
use crate::show::{counted, note, numbered, say};
use crate::slip::{self, Showing};
use slipq::{ItemState, PageState, Queue};

pub fn queue(stored: &mut Stored) -> Queue<'_> {
    Queue::new(&mut stored.image, stored.shape).expect("the shape was checked")
}

pub fn new(words: Words) -> Result<(), Failure> {
    let given = Numbers::of_words(&words)?;
    let [name] = words.places(["FILE"])?;
    let shape = file::create(name.as_ref(), given)?;
    say(&format!(
        "{}: {} of {} bytes, words of {}, from {}; erased",
        name.to_string_lossy(),
        counted(shape.pages() as usize, "page", "pages"),
        shape.page,
        shape.word,
        shape.start
    ))
}

pub fn push(words: Words) -> Result<(), Failure> {
    let given = Numbers::of_words(&words)?;
    let (overwrite, force) = (words.has("overwrite"), words.has("force"));
    let limit = words.number("limit")?;
    let (name, slip) = slip::of_words(words)?;
    let mut change = Change::of(file::hold(&name, given, force)?, force);
    let mut queue = queue(&mut change.held.stored);
    let answer = match limit {
        None => queue.push(&slip, overwrite),
        Some(limit) => queue.push_limited(&slip, overwrite, limit),
    };
    change.test_marks()?;
    change.keep()?;
    answer.map_err(|error| refused(error, &mut change.held.stored, slip.len()))
}

pub fn pop(words: Words) -> Result<(), Failure> {
    let given = Numbers::of_words(&words)?;
    let force = words.has("force");
    let limit = words.number("limit")?;
    let showing = Showing::of_words(&words)?;
    let [name] = words.places(["FILE"])?;
    let mut change = Change::of(file::hold(name.as_ref(), given, force)?, force);
    let mut buffer = showing.buffer(&change.held.stored);
    let mut queue = queue(&mut change.held.stored);
    let answer = match limit {
        None => queue.pop(&mut buffer),
        Some(limit) => queue.pop_limited(&mut buffer, limit),
    };
    if let Ok(None) = answer {
        change.test_empty()?;
    }
    change.test_marks()?;
    if let Ok(Some(slip)) = &answer {
        // what cannot be shown is not taken
        showing
            .say(slip)
            .inspect_err(|_| note("the slip cannot be shown, so it stays in the queue"))?;
    }
    change.keep()?;
    match answer {
        Ok(Some(_)) => Ok(()),
        Ok(None) => Err(Failure::Empty),
        Err(error) => Err(refused(error, &mut change.held.stored, 0)),
    }
}

pub fn erase(words: Words) -> Result<(), Failure> {
    let given = Numbers::of_words(&words)?;
    let limit = words.number("limit")?;
    let force = words.has("force");
    let [name] = words.places(["FILE"])?;
    let mut held = file::hold(name.as_ref(), given, force)?;
    let mut queue = queue(&mut held.stored);
    let answer = match limit {
        None => queue.erase_all(),
        Some(limit) => queue.erase_all_limited(limit),
    };
    held.keep()?;
    answer.map_err(|error| refused(error, &mut held.stored, 0))
}

/// A file that a push or pop changes, and its pages as they were.
struct Change {
    held: Held,
    pages: Vec<Page>,
    force: bool,
}

impl Change {
    fn of(mut held: Held, force: bool) -> Change {
        let pages = pages(&mut held.stored.image, held.stored.shape);
        note_unreadable(&pages);
        Change { held, pages, force }
    }

    /// The pages that the call has erased: a store of a word sets no bit, so a bit that is set anew tells.
    fn erased(&self) -> impl Iterator<Item = &Page> {
        let size = self.held.stored.shape.page as usize;
        self.pages.iter().filter(move |page| {
            let before = &self.held.before[page.address as usize..][..size];
            let after = &self.held.stored.image[page.address as usize..][..size];
            // most pages are as they were, which is soon told
            before != after && before.iter().zip(after).any(|(old, new)| new & !old != 0)
        })
    }

    /// An empty answer that erased what it could not read is more likely a wrong shape than a finished page.
    fn test_empty(&self) -> Result<(), Failure> {
        let erased = self.erased().filter(|page| page.unreadable > 0);
        let erased: Vec<u32> = erased.map(|page| page.number).collect();
        if erased.is_empty() || self.force {
            return Ok(());
        }
        Err(Failure::Kept(format!(
            "empty, and the file is left as it was: this would erase {}, not all readable; is the shape right? --force erases",
            numbered(&erased)
        )))
    }

    /// No store leaves a mark that is neither 00 nor FF. One such page is damage, an erase that was interrupted for one; but where most
    /// pages have such marks, they are another shape's, and none of them is erased.
    fn test_marks(&self) -> Result<(), Failure> {
        let odd = self.pages.iter().filter(|page| page.has_odd_mark).count();
        let written = self.pages.iter().filter(|page| !page.is_erased).count();
        let erased = self.erased().filter(|page| page.has_odd_mark);
        let erased: Vec<u32> = erased.map(|page| page.number).collect();
        if erased.is_empty() || 2 * odd <= written || self.force {
            return Ok(());
        }
        Err(Failure::NoShape(format!(
            "the file is left as it was: this would erase {}, with marks of another shape (`slips guess`); --force erases",
            numbered(&erased)
        )))
    }

    /// Writes the file, and says what a repair has cost.
    fn keep(&self) -> Result<(), Failure> {
        self.held.keep()?;
        for page in self.erased() {
            let whole = page.count(ItemState::Waits);
            if page.state == PageState::Corrupted && whole > 0 {
                let slips = counted(whole, "whole slip", "whole slips");
                note(&format!(
                    "page {} was corrupted: a repair has erased it, with {slips}",
                    page.number
                ));
            }
        }
        Ok(())
    }
}
