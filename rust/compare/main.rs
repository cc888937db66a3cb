//! compare: libdock.a beside the unchanged Rust crate, call by call: the answer, its numbers, the image and the buffer.
//!
//! Built by the script compare at the repository's root, with plain rustc: the crate is there as a library that rustc built
//! (oracle/build), not as a package that cargo could name.
#[path = "../slipq/src/face.rs"]
mod face;
mod large;
mod lent;
#[path = "../slips/src/progress.rs"]
mod progress;
mod rules;
mod shrink;
mod sides;
#[path = "../slips/src/system.rs"]
#[allow(dead_code)] // of what the tool asks of the system, this asks for the terminal alone
mod system;

use face::Answer;
use judge::cases::{random, small};
use judge::{Call, Case, Outcome, judge, refusal};
use lent::{asked, numbers};
use progress::Progress;
use std::collections::BTreeMap;
use std::fmt::{Display, Formatter, Result as Formatted};
use std::process::ExitCode;
use std::time::{Duration, Instant};

const USAGE: &str = "\
usage: compare [SEED [COUNT]]     random cases, by default of seed 1 for 20 seconds; every seventh with its limits
       compare --small            all cases of a few small geometries
       compare --quick            the small ones, then four million random ones of seed 1: under a minute
       compare --large            the largest images, up to 256 pages of 65,536, filled and emptied twice round with cuts, and
                                  shapes at the limits and beyond: under a minute
       compare --replay LINE      one case: call start end page word limit overwrite image slip buffer
exit status: 0 all equal, 1 a difference, 2 a wrong command line";

/// How long a run without a count takes.
const USUAL: Duration = Duration::from_secs(20);

/// How many random cases the quick run has.
const QUICK: usize = 4_000_000;

/// Every so many cases without a limit are asked with their limits too, and their pages are looked at.
const SHARE: u64 = 7;

/// A case is asked with each of its limits while the images for that have no more bytes together, as for a few pages of 4,096; beyond,
/// the first limits, the last and some between have to do.
const LIMITED: usize = 1 << 25;

/// A page of more words than one of 4,096 can have is not looked at everywhere.
const LOOKED_AT: usize = 1024;

/// So many differences end a run; the smallest is shown.
const ENOUGH: usize = 50;

fn main() -> ExitCode {
    let words: Vec<String> = std::env::args().skip(1).collect();
    let words: Vec<&str> = words.iter().map(String::as_str).collect();
    match words[..] {
        [] => run(random(1), None),
        ["--small"] => run(small(), Some(u64::MAX)),
        ["--quick"] => run(small().chain(random(1).take(QUICK)), Some(u64::MAX)),
        ["--large"] => large::run(),
        ["--replay", ref line @ ..] if !line.is_empty() => replay(&line.join(" ")),
        ["--help" | "-h"] => {
            println!("{USAGE}");
            ExitCode::SUCCESS
        }
        [seed] => match seed.parse() {
            Ok(seed) => run(random(seed), None),
            Err(_) => misused(),
        },
        [seed, count] => match (seed.parse(), count.parse()) {
            (Ok(seed), Ok(count)) => run(random(seed), Some(count)),
            _ => misused(),
        },
        _ => misused(),
    }
}

fn misused() -> ExitCode {
    eprintln!("{USAGE}");
    ExitCode::from(2)
}

#[derive(Default)]
struct Figures {
    cases: u64,
    limited: u64,
    looks: u64,
    /// why the crate gave no answer, and how often: most often, that the judge has no instance of it for the shape
    not_asked: BTreeMap<String, u64>,
    answers: BTreeMap<u32, u64>,
    differing: usize,
}

impl Figures {
    fn line(&self) -> String {
        format!(
            "{} cases, {} more with a limit, {} looks at a page, {} different",
            self.cases, self.limited, self.looks, self.differing
        )
    }

    fn print(&self, elapsed: Duration) {
        let rows = self.answers.iter();
        let rows: Vec<String> = rows.map(|(row, count)| format!("{row}: {count}")).collect();
        println!("answers by row: {}", rows.join(", "));
        for (name, count) in &self.not_asked {
            println!("left out, without an answer of the Rust: {count}, {name}");
        }
        let seconds = elapsed.as_secs_f64();
        println!("compare: {} in {seconds:.1} s", self.line());
    }
}

fn run(cases: impl Iterator<Item = Case>, count: Option<u64>) -> ExitCode {
    let begun = Instant::now();
    let mut figures = Figures::default();
    let mut progress = Progress::new();
    let mut smallest: Option<Case> = None;
    for case in cases {
        let is_over = match count {
            Some(count) => figures.cases >= count,
            None => begun.elapsed() >= USUAL,
        };
        if is_over || figures.differing >= ENOUGH {
            break;
        }
        progress.show(|| format!("compare: {}", figures.line()));
        figures.cases += 1;
        for found in compared(&case, &mut figures) {
            figures.differing += 1;
            if smallest.as_ref().is_none_or(|old| size(&found) < size(old)) {
                smallest = Some(found);
            }
        }
    }
    progress.end();
    figures.print(begun.elapsed());
    match smallest {
        None => ExitCode::SUCCESS,
        Some(case) => {
            let case = shrink::shrunk(case, |case| difference(case).is_some());
            println!("the smallest difference, for compare --replay:");
            show(&case);
            ExitCode::FAILURE
        }
    }
}

/// The cases that differ: the case itself, and in its share the case with its limits. There its pages are looked at too.
fn compared(case: &Case, figures: &mut Figures) -> Vec<Case> {
    let expected = judge(case);
    if let Some(name) = expected.failure {
        *figures.not_asked.entry(name).or_default() += 1;
        return vec![];
    }
    *figures.answers.entry(expected.numbers[0]).or_default() += 1;
    let mut found = vec![];
    let mut differs = call_difference(case, &expected).is_some();
    if case.limit.is_none() && figures.cases.is_multiple_of(SHARE) {
        for look in looks(case) {
            figures.looks += 1;
            differs |= look.found != look.expected;
        }
        // one limit more than there are stores
        let limits = expected.stores.len() + 2;
        for limit in spread(limits, limits * case.image.len() <= LIMITED) {
            figures.limited += 1;
            let limited = Case {
                limit: Some(limit),
                ..case.clone()
            };
            let expected = judge(&limited);
            if expected.failure.is_some() || call_difference(&limited, &expected).is_some() {
                found.push(limited);
            }
        }
    }
    if differs {
        found.push(case.clone());
    }
    found
}

/// The numbers below a count: all, or the first, the last and some between.
fn spread(count: usize, is_all: bool) -> impl Iterator<Item = usize> {
    let is_near_an_end = move |number| number < 24 || count - number <= 24;
    let step = (count / 32).max(1);
    (0..count)
        .filter(move |number| is_all || is_near_an_end(*number) || number.is_multiple_of(step))
}

/// What libdock.a does otherwise than the crate, or sees otherwise on the case's pages.
fn difference(case: &Case) -> Option<String> {
    let expected = judge(case);
    if expected.failure.is_some() {
        return None;
    }
    let look = || looks(case).find(|look| look.found != look.expected);
    call_difference(case, &expected).or_else(|| look().map(|look| look.to_string()))
}

fn call_difference(case: &Case, expected: &Outcome) -> Option<String> {
    let row = refusal(&case.shape, case.image.len()).unwrap_or(0);
    let checked = face::check(case.image.len(), numbers(&case.shape));
    if checked != (Answer { row, value: 0 }) {
        return Some(format!(
            "the check of the shape: {checked:?}, not row {row}"
        ));
    }
    let found = asked(case);
    let what = if found.is_astray {
        "a byte that was not lent to be changed"
    } else if found.answer != answer_of(case.call, &expected.numbers) {
        "the answer"
    } else if found.image.bytes() != expected.image {
        "the image"
    } else if found.buffer.bytes() != expected.buffer {
        "the buffer"
    } else {
        return None;
    };
    Some(what.into())
}

/// The crate's answer as libdock.a gives it.
fn answer_of(call: Call, numbers: &[u32]) -> Answer {
    let row = numbers[0];
    let none = if call == Call::FindMaxFit && row == 0 {
        face::NO_FIT
    } else {
        0
    };
    Answer {
        row,
        value: numbers.get(1).copied().unwrap_or(none),
    }
}

/// What is seen of a page's state or of an item on it, and what should be.
struct Look {
    page: u32,
    /// the item's; none for the page's state
    address: Option<u32>,
    found: rules::Numbers,
    expected: rules::Numbers,
}

impl Look {
    fn state(case: &Case, page: u32) -> Look {
        let Case { shape, image, .. } = case;
        let Answer { row, value } = face::page_state(image, numbers(shape), page);
        Look {
            page,
            address: None,
            found: (row, value),
            expected: rules::page_state(image, shape, page),
        }
    }

    fn item(case: &Case, page: u32, address: u32) -> Look {
        let Case { shape, image, .. } = case;
        let Answer { row, value } = face::item(image, numbers(shape), page, address);
        Look {
            page,
            address: Some(address),
            found: (row, value),
            expected: rules::item(image, shape, page, address),
        }
    }
}

impl Display for Look {
    fn fmt(&self, f: &mut Formatter) -> Formatted {
        let Look {
            page,
            address,
            found,
            expected,
        } = self;
        match address {
            None => write!(f, "the state of page {page}")?,
            Some(address) => write!(f, "the item at {address} of page {page}")?,
        }
        write!(f, ": row and value {found:?}, not {expected:?}")
    }
}

/// Looks at every page, at the words of the first pages and of the last, and at places outside them. Of a refused shape at two places.
fn looks(case: &Case) -> impl Iterator<Item = Look> {
    let shape = &case.shape;
    let pages = match refusal(shape, case.image.len()) {
        Some(_) => 0,
        None => (shape.end - shape.start) / shape.page,
    };
    let states = (0..=pages).map(|p| Look::state(case, p));
    let last = pages.checked_sub(1).filter(|p| *p > 3);
    let places = (0..=pages.min(3)).chain(last).flat_map(move |p| {
        let first = shape.start.saturating_add(p.saturating_mul(shape.page));
        let words = match pages {
            0 => 0,
            _ => (shape.page / shape.word) as usize,
        };
        // the first word of all is a mark, and the last one stands at the end of the data; the places around the page are outside
        let within =
            spread(words, words <= LOOKED_AT).map(move |word| first + word as u32 * shape.word);
        let around = [
            0,
            first.wrapping_sub(4),
            first.saturating_add(shape.page),
            u32::MAX,
        ];
        within.chain(around).map(move |address| (p, address))
    });
    states.chain(places.map(|(p, address)| Look::item(case, p, address)))
}

/// How large a case is to a reader.
fn size(case: &Case) -> usize {
    case.to_string().len()
}

/// A case, and what both made of it.
fn show(case: &Case) {
    println!("{case}");
    let expected = judge(case);
    let hex = |bytes: &[u8]| match bytes {
        [] => "-".to_string(),
        _ => bytes.iter().map(|byte| format!("{byte:02x}")).collect(),
    };
    let line = |answer: Answer, image: &[u8], buffer: &[u8]| {
        let Answer { row, value } = answer;
        format!(
            "row {row}, value {value}, image {}, buffer {}",
            hex(image),
            hex(buffer)
        )
    };
    match &expected.failure {
        Some(name) => println!("the Rust:  {name}"),
        None => {
            let answer = answer_of(case.call, &expected.numbers);
            println!(
                "the Rust:  {}",
                line(answer, &expected.image, &expected.buffer)
            );
        }
    }
    let found = asked(case);
    println!(
        "libdock.a: {}",
        line(found.answer, found.image.bytes(), found.buffer.bytes())
    );
    match difference(case) {
        _ if expected.failure.is_some() => println!("the judge cannot be asked"),
        None => println!("equal"),
        Some(what) => println!("different: {what}"),
    }
}

fn replay(line: &str) -> ExitCode {
    match line.parse::<Case>() {
        Err(error) => {
            eprintln!("compare: {error}\n{USAGE}");
            ExitCode::from(2)
        }
        Ok(case) => {
            show(&case);
            match difference(&case) {
                None => ExitCode::SUCCESS,
                Some(_) => ExitCode::FAILURE,
            }
        }
    }
}
