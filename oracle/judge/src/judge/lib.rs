//! The judge: what the unchanged crate sequential-storage 8.0.2 answers to a call, in document 01's numbers.
pub mod cases;
pub mod slip;
mod text;

pub use asked::Store;
use asked::{Answer, Ask, Chip, instance};
use core::mem::take;
use core::ops::Range;
use std::cell::{Cell, RefCell};
use std::panic::{AssertUnwindSafe, PanicHookInfo, catch_unwind, set_hook, take_hook};
use std::sync::Once;

#[derive(Clone, Copy, Debug, PartialEq, Eq)]
pub enum Call {
    Push,
    Peek,
    Pop,
    FindMaxFit,
    SpaceLeft,
    EraseAll,
}

impl Call {
    pub const ALL: [Call; 6] = [
        Call::Push,
        Call::Peek,
        Call::Pop,
        Call::FindMaxFit,
        Call::SpaceLeft,
        Call::EraseAll,
    ];
}

/// A geometry before it is checked.
#[derive(Clone, Copy, Debug, PartialEq, Eq)]
pub struct Shape {
    pub start: u32,
    pub end: u32,
    pub page: u32,
    pub word: u32,
}

/// One call and all that it is given. A call takes no notice of what it does not use: only push has a slip and the overwrite
/// flag, only peek and pop have a buffer.
#[derive(Clone, Debug, PartialEq, Eq)]
pub struct Case {
    pub call: Call,
    pub shape: Shape,
    /// how many stores may be made
    pub limit: Option<usize>,
    pub overwrite: bool,
    pub image: Vec<u8>,
    pub slip: Vec<u8>,
    pub buffer: Vec<u8>,
}

/// What a call came to.
#[derive(Clone, Debug, PartialEq, Eq)]
pub struct Outcome {
    /// document 01's row and the values that come with it. `find_max_fit` with no fit has the row 0 alone
    pub numbers: Vec<u32>,
    /// the name of what came instead of an answer: a panic, or an error that has no row. `numbers` is empty then
    pub failure: Option<String>,
    /// the stores that were made, in order
    pub stores: Vec<Store>,
    pub image: Vec<u8>,
    pub buffer: Vec<u8>,
}

/// The outcome of a call: document 01's refusals of a shape, then the crate's answer.
pub fn judge(case: &Case) -> Outcome {
    judge_given(case.clone())
}

/// The same for a case that is given away: its image and buffer become the outcome's, and are not copied.
pub fn judge_given(case: Case) -> Outcome {
    match refusal(&case.shape, case.image.len()) {
        Some(row) => Outcome {
            numbers: vec![row],
            failure: None,
            stores: vec![],
            image: case.image,
            buffer: case.buffer,
        },
        None => {
            let allowed = case.shape.start..case.shape.end;
            ask_given(case, 0, allowed)
        }
    }
}

/// The row of the first of document 01's rules that a shape breaks, for an image of so many bytes.
pub fn row_by_rule(shape: &Shape, image: usize) -> Option<u32> {
    let Shape {
        start,
        end,
        page,
        word,
    } = *shape;
    let [start, end, page, word] = [start, end, page, word].map(u64::from);
    if page == 0 || word == 0 || !page.is_multiple_of(word) {
        return Some(9);
    }
    let rules = [
        (10, !start.is_multiple_of(page)),
        (11, !end.is_multiple_of(page)),
        (12, end < start + page),
        (13, page < 3 * word + 8_u64.next_multiple_of(word)),
        (14, word > 32),
        (15, ![4, 8, 16, 32].contains(&word)),
        (16, page > 65_536 || end.saturating_sub(start) / page > 256),
        (17, end > image as u64),
    ];
    rules
        .into_iter()
        .find(|(_, is_broken)| *is_broken)
        .map(|(row, _)| row)
}

/// The row of a shape's refusal. Rows 10 to 14 are the crate's answer, where it can be asked.
pub fn refusal(shape: &Shape, image: usize) -> Option<u32> {
    let by_rule = row_by_rule(shape, image);
    let can_be_asked = by_rule != Some(9) && shape.start <= shape.end;
    match instance(shape.word, shape.page) {
        Some(instance) if can_be_asked => {
            (instance.check)(shape.start..shape.end).or(by_rule.filter(|row| *row > 14))
        }
        _ => by_rule,
    }
}

/// What the crate makes of a call when nothing is decided before it. The image begins at the address `base`, and the crate may
/// touch the addresses of `allowed`.
pub fn ask(case: &Case, base: u32, allowed: Range<u32>) -> Outcome {
    ask_given(case.clone(), base, allowed)
}

fn ask_given(mut case: Case, base: u32, allowed: Range<u32>) -> Outcome {
    let Shape {
        start,
        end,
        page,
        word,
    } = case.shape;
    let mut chip = Chip {
        image: take(&mut case.image),
        base,
        allowed,
        start,
        word,
        page,
        limit: case.limit,
        stores: vec![],
        reads: 0,
    };
    let answer = match instance(word, page) {
        None => Err(format!("no instance for word {word} and page {page}")),
        Some(instance) => caught(|| (instance.ask)(asked_by(&mut case), start..end, &mut chip)),
    };
    let (numbers, failure) = match answer {
        Ok(numbers) => (numbers, None),
        Err(name) => (vec![], Some(name)),
    };
    Outcome {
        numbers,
        failure,
        stores: chip.stores,
        image: chip.image,
        buffer: case.buffer,
    }
}

/// What the crate is asked in a case.
fn asked_by(case: &mut Case) -> Ask<'_> {
    let buffer = &mut case.buffer;
    match case.call {
        Call::Push => Ask::Push {
            slip: &case.slip,
            overwrite: case.overwrite,
        },
        Call::Peek => Ask::Peek { buffer },
        Call::Pop => Ask::Pop { buffer },
        Call::FindMaxFit => Ask::FindMaxFit,
        Call::SpaceLeft => Ask::SpaceLeft,
        Call::EraseAll => Ask::EraseAll,
    }
}

/// What the crate's check of a shape says, when nothing is decided before it: the row of a refusal, or none.
pub fn ask_check(shape: &Shape) -> Result<Option<u32>, String> {
    let Some(instance) = instance(shape.word, shape.page) else {
        return Err(format!("no instance for {shape:?}"));
    };
    let row = caught(|| {
        Ok((instance.check)(shape.start..shape.end)
            .into_iter()
            .collect())
    })?;
    Ok(row.first().copied())
}

/// The page sizes that the crate can be asked about, for a word.
pub fn pages(word: u32) -> Vec<u32> {
    let of_word = asked::IN_USE
        .iter()
        .filter(|instance| instance.word == word);
    of_word.map(|instance| instance.page).collect()
}

thread_local! {
    static IS_LISTENING: Cell<bool> = const { Cell::new(false) };
    static HEARD: RefCell<String> = const { RefCell::new(String::new()) };
}

/// An answer, or the name of the panic that came in its place, which is printed nowhere.
fn caught(ask: impl FnOnce() -> Answer) -> Answer {
    static HOOK: Once = Once::new();
    HOOK.call_once(|| {
        let usual = take_hook();
        set_hook(Box::new(move |panic| {
            if IS_LISTENING.get() {
                HEARD.set(name(panic));
            } else {
                usual(panic);
            }
        }));
    });
    IS_LISTENING.set(true);
    let answer = catch_unwind(AssertUnwindSafe(ask));
    IS_LISTENING.set(false);
    answer.unwrap_or_else(|_| Err(HEARD.take()))
}

/// What a panic says, and the line it came from.
fn name(panic: &PanicHookInfo) -> String {
    let says = panic.payload_as_str().unwrap_or("something");
    match panic.location() {
        None => format!("panic: {says}"),
        Some(at) => format!("panic: {says}, {}:{}", at.file(), at.line()),
    }
}
