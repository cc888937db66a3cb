//! Which shapes an image reads well in.
//!
//! A shape is tried page by page: what marks and whole items take speaks for it, what is torn against it, and what is neither FF nor
//! readable twice. Tried are pages that divide the file, and powers of two; all of the file, and where that is long or reads badly, the pages
//! in a row that speak for the shape the most.
use crate::arguments::Words;
use crate::failure::Failure;
use crate::file::{read_shape_file, unread};
use crate::page::{Page, is_uniform};
use crate::shape::{Numbers, options};
use crate::show::{counted, say};
use slipq::{Item, ItemState, PageState, Queue, Shape};
use std::cmp::Reverse;
use std::iter;
use std::ops::Range;
use std::path::Path;

const WORDS: [u32; 4] = [4, 8, 16, 32];
const MOST_PAGES: usize = Shape::MOST_PAGES as usize;
/// A file of more pages may well hold more than the queue: erased pages at its ends speak neither for that nor against it.
const FEW_PAGES: usize = 64;
/// How many shapes are shown. Where one page is written, its slips do not tell the twelve powers of two from 32 to 65,536 apart, and for
/// some of them there are two ranges.
const MOST_SHOWN: usize = 16;

/// What was read in one shape.
#[derive(Clone, Copy, Debug, Default, PartialEq, Eq)]
struct Reading {
    waiting: usize,
    popped: usize,
    torn: usize,
    /// the bytes that are neither FF nor readable
    unreadable: usize,
    /// what speaks for the shape less what speaks against it, in bytes
    score: i64,
}

impl Reading {
    fn of(pages: &[Reading]) -> Reading {
        pages.iter().fold(Reading::default(), |sum, page| Reading {
            waiting: sum.waiting + page.waiting,
            popped: sum.popped + page.popped,
            torn: sum.torn + page.torn,
            unreadable: sum.unreadable + page.unreadable,
            score: sum.score + page.score,
        })
    }

    /// Reads one page, of whose bytes so many are not FF. Its start mark is looked at first: most pages of a wrong shape fail there.
    fn of_page(image: &mut [u8], shape: Shape, written: usize) -> Reading {
        if written == 0 {
            return Reading::default();
        }
        if !is_uniform(&image[shape.start as usize..][..shape.word as usize]) {
            return Reading {
                unreadable: written,
                score: -2 * written as i64,
                ..Reading::default()
            };
        }
        let queue = Queue::new(image, shape).expect("the shape was checked");
        let page = Page::of(&queue, 0);
        let size = |item: &Item| item.payload - item.address + item.length;
        let bytes_of = |is_torn: bool| -> i64 {
            let items = page.items.iter();
            let items = items.filter(|item| (item.state == ItemState::Torn) == is_torn);
            items.map(|item| i64::from(size(item))).sum()
        };
        let marks = match page.state {
            PageState::Open => 0,
            PageState::PartialOpen => 1,
            PageState::Closed => 2,
            PageState::Corrupted => -2,
        };
        let against = bytes_of(true) + 2 * page.unreadable as i64;
        Reading {
            waiting: page.count(ItemState::Waits),
            popped: page.count(ItemState::Popped),
            torn: page.count(ItemState::Torn),
            unreadable: page.unreadable,
            score: bytes_of(false) + marks * i64::from(shape.word) - against,
        }
    }
}

pub fn guess(words: Words) -> Result<(), Failure> {
    let given = Numbers::of_words(&words)?;
    let [name] = words.places(["FILE"])?;
    let name: &Path = name.as_ref();
    let mut image = std::fs::read(name).map_err(|error| unread(name, error))?;
    let mut found = readings(&mut image, given);
    // powers of two first where the slips do not decide: most chips have such pages
    found.sort_by_key(|(shape, reading)| {
        let is_likely = shape.page.is_power_of_two();
        let pages = Reverse(shape.pages());
        (-reading.score, !is_likely, shape.page, shape.word, pages)
    });
    let Some(best) = found.first().map(|(_, reading)| reading.score) else {
        return Err(Failure::NoShape(format!(
            "{}: no shape reads more of it than it leaves unread",
            name.display()
        )));
    };
    // what reads less than half as well is no rival
    found.retain(|(_, reading)| 2 * reading.score >= best);
    let is_best = |(_, reading): &&(Shape, Reading)| reading.score == best;
    let equal = found.iter().filter(is_best).count();
    say_all(&found, noted_shape(name, image.len()))?;
    match equal {
        1 => Ok(()),
        2..=MOST_SHOWN => say(&format!("the first {equal} read equally well")),
        _ => say(&format!(
            "{equal} shapes read equally well; {MOST_SHOWN} of them are shown"
        )),
    }
}

fn say_all(found: &[(Shape, Reading)], noted: Option<Shape>) -> Result<(), Failure> {
    for (shape, reading) in found.iter().take(MOST_SHOWN) {
        let is_noted = Some(*shape) == noted;
        let beside = if is_noted {
            "  (as FILE.shape says)"
        } else {
            ""
        };
        let (shape, reading) = (options(*shape), line(reading));
        say(&format!("{shape}{beside}\n    {reading}"))?;
    }
    Ok(())
}

/// What the shape file says, if it can be read.
fn noted_shape(name: &Path, image_len: usize) -> Option<Shape> {
    let real = std::fs::canonicalize(name).ok()?;
    let noted = read_shape_file(&real).ok()??;
    Numbers::shape(Numbers::default(), noted, image_len).ok()
}

fn line(reading: &Reading) -> String {
    format!(
        "{}: {} waiting, {} popped; {} torn, {} not readable",
        counted(reading.waiting + reading.popped, "slip", "slips"),
        reading.waiting,
        reading.popped,
        reading.torn,
        counted(reading.unreadable, "byte", "bytes")
    )
}

/// The shapes in which more is read than not.
fn readings(image: &mut [u8], given: Numbers) -> Vec<(Shape, Reading)> {
    let mut found = vec![];
    for page in page_sizes(image.len(), given) {
        let written = written(image, page);
        for word in WORDS
            .into_iter()
            .filter(|word| given.word.is_none_or(|given| given == *word))
        {
            let is_well = |(_, reading): &(Shape, Reading)| {
                reading.score > 0 && reading.waiting + reading.popped > 0
            };
            let with_word = of_pages(image, given, page, word, &written).unwrap_or_default();
            found.extend(with_word.into_iter().filter(is_well));
        }
    }
    found
}

/// How many bytes of each page are not FF. They are counted once for all words.
fn written(image: &[u8], page: u32) -> Vec<usize> {
    let count = |bytes: &[u8]| bytes.iter().filter(|byte| **byte != 0xff).count();
    image.chunks(page.max(1) as usize).map(count).collect()
}

fn page_sizes(length: usize, given: Numbers) -> Vec<u32> {
    if let Some(page) = given.page {
        return vec![page];
    }
    let is_likely = |page: &u32| {
        let pages = length / *page as usize;
        let divides = length.is_multiple_of(*page as usize) && pages <= MOST_PAGES;
        pages > 0 && (divides || page.is_power_of_two())
    };
    (20..=Shape::LARGEST_PAGE)
        .step_by(4)
        .filter(is_likely)
        .collect()
}

/// The readings with this page and word, over all of the file or a part of it; none where the two do not go together.
fn of_pages(
    image: &mut [u8],
    given: Numbers,
    page: u32,
    word: u32,
    written: &[usize],
) -> Option<Vec<(Shape, Reading)>> {
    let whole = Numbers {
        page: Some(page),
        word: Some(word),
        ..given
    };
    let all = Numbers::shape(whole, Numbers::default(), image.len()).ok()?;
    if page == 0 || all.pages() == 0 || all.end as usize > image.len() {
        return None;
    }
    let part = |range: &Range<usize>| Shape {
        start: all.start + range.start as u32 * page,
        end: all.start + range.end as u32 * page,
        ..all
    };
    part(&(0..1)).check(image.len()).ok()?;
    // the start is a multiple of the page: that was checked
    let written = &written[(all.start / page) as usize..][..all.pages() as usize];
    let of_page = |(number, written): (usize, &usize)| {
        Reading::of_page(image, part(&(number..number + 1)), *written)
    };
    let pages: Vec<Reading> = written.iter().enumerate().map(of_page).collect();
    let mut ranges = match given.pages {
        Some(_) => iter::once(0..pages.len()).collect(),
        None => ranges(&pages),
    };
    // more pages may be given than a queue has
    ranges.retain(|range| part(range).check(image.len()).is_ok());
    let read = |range: Range<usize>| (part(&range), Reading::of(&pages[range]));
    Some(ranges.into_iter().map(read).collect())
}

/// The whole file, if it can be a range and a part of it does not read much better. That part, if it is not so, or if the file is long.
fn ranges(pages: &[Reading]) -> Vec<Range<usize>> {
    let (whole, run) = (0..pages.len(), best_run(pages));
    let score = |range: &Range<usize>| Reading::of(&pages[range.clone()]).score;
    let is_whole = pages.len() <= MOST_PAGES && 2 * score(&whole) >= score(&run);
    let is_part = !is_whole || pages.len() > FEW_PAGES && run != whole;
    let whole = is_whole.then_some(whole);
    whole.into_iter().chain(is_part.then_some(run)).collect()
}

/// The pages in a row, at most as many as a queue has, with the highest score together: a run is given up where it no longer speaks for the shape.
fn best_run(pages: &[Reading]) -> Range<usize> {
    let (mut best, mut best_score) = (0..0, 0);
    let (mut start, mut score) = (0, 0);
    for (index, page) in pages.iter().enumerate() {
        if score <= 0 || index - start == MOST_PAGES {
            (start, score) = (index, 0);
        }
        score += page.score;
        if score > best_score {
            (best, best_score) = (start..index + 1, score);
        }
    }
    best
}

#[cfg(test)]
mod tests {
    use super::*;

    #[test]
    fn the_best_run_leaves_out_what_does_not_read() {
        let pages = |scores: &[i64]| -> Vec<Reading> {
            let page = |score: &i64| Reading {
                score: *score,
                ..Reading::default()
            };
            scores.iter().map(page).collect()
        };
        assert_eq!(best_run(&pages(&[-9, 5, -2, 6, 0, -9, 7])), 1..4);
        assert_eq!(best_run(&pages(&[-1, 0])), 0..0);
        assert_eq!(best_run(&pages(&[1; MOST_PAGES + 6])), 0..MOST_PAGES);
    }

    #[test]
    fn of_a_long_file_a_part_is_tried_too() {
        let pages = |erased: usize| -> Vec<Reading> {
            let page = |number: usize| Reading {
                score: i64::from(number < 3),
                ..Reading::default()
            };
            (0..3 + erased).map(page).collect()
        };
        assert_eq!(ranges(&pages(1)), iter::once(0..4).collect::<Vec<_>>());
        assert_eq!(ranges(&pages(100)), [0..103, 0..3]);
        assert_eq!(ranges(&pages(253)), [0..256, 0..3]);
        assert_eq!(ranges(&pages(254)), iter::once(0..3).collect::<Vec<_>>());
    }
}
