//! A refusal of the queue in words: which limit or which page, and what to do.
use crate::failure::Failure;
use crate::file::Stored;
use crate::page::pages;
use crate::show::counted;
use crate::survey::{Survey, ends};
use slipq::{Error, PageState};

/// What is said of a refused call on this image, as the call left it. The length is that of the slip that was to be pushed.
pub fn refused(error: Error, stored: &mut Stored, length: usize) -> Failure {
    let says = match error {
        Error::ItemTooBig => {
            let (page, word) = (stored.shape.page, stored.shape.word);
            let most = (page - 2 * word - 8_u32.next_multiple_of(word)).min(65_535);
            let has = counted(length, "byte", "bytes");
            format!(
                "the slip has {has}, and a page of {page} with words of {word} takes {most} at most"
            )
        }
        Error::FullStorage => format!("{error}: {}", room(stored)),
        Error::BufferTooSmall(needed) => format!("{error}: give --buffer {needed}"),
        Error::Corrupted => corrupted(stored),
        _ => error.to_string(),
    };
    Failure::Refused(error, says)
}

/// What makes room. A torn slip is live: where it alone fills the queue, there is nothing to pop.
fn room(stored: &Stored) -> &'static str {
    let survey = Survey::of(&stored.image, stored.shape);
    match (survey.list.is_empty(), survey.pages.len()) {
        (false, _) => "pop slips, or give --overwrite",
        (true, 1) => "no slip waits, and `slips erase` or --overwrite frees what a torn one takes",
        (true, _) => "no slip waits, and `slips pop` erases the pages that are finished",
    }
}

/// A repair has been made by now, so it is the order of the pages that is wrong.
fn corrupted(stored: &mut Stored) -> String {
    let name = stored.name.display().to_string();
    let pages = pages(&mut stored.image, stored.shape);
    let states: Vec<PageState> = pages.iter().map(|page| page.state).collect();
    let next = |page: u32| (page + 1) % states.len() as u32;
    let what = match ends(&states) {
        Some(_) if states.len() == 1 => {
            return "page 0 is the sole page and has slips, and there find_max_fit has no number: `slips space` has one".into();
        }
        None => format!(
            "pages 0 to {} are all closed, so none is current",
            states.len() - 1
        ),
        Some((_, current)) if states[next(current) as usize] == PageState::PartialOpen => {
            let next = next(current);
            format!("page {current} is current, and page {next} behind it is begun too")
        }
        Some((_, current)) => format!("{} (page {current} is current)", Error::Corrupted),
    };
    format!("{what}: save what `slips list --raw {name}` shows, then `slips erase {name}`")
}
