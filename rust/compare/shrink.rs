//! Makes a differing case smaller, as long as it differs.
use judge::{Case, Shape};
use std::ops::Range;
use std::time::{Duration, Instant};

/// How many smaller cases are tried, and for how long.
const TRIES: usize = 20_000;
const LONGEST: Duration = Duration::from_secs(60);

pub fn shrunk(case: Case, differs: impl Fn(&Case) -> bool) -> Case {
    let begun = Instant::now();
    let mut best = case;
    let mut left = TRIES;
    loop {
        let mut is_smaller = false;
        for step in steps(&best) {
            if left == 0 || begun.elapsed() > LONGEST {
                return best;
            }
            left -= 1;
            let mut tried = best.clone();
            step(&mut tried);
            if tried != best && differs(&tried) {
                best = tried;
                is_smaller = true;
            }
        }
        if !is_smaller {
            return best;
        }
    }
}

type Step = Box<dyn Fn(&mut Case)>;

/// The changes that are tried: large ones first. None of them undoes another, so that the tries come to an end.
fn steps(case: &Case) -> Vec<Step> {
    let mut steps: Vec<Step> = vec![
        Box::new(|case| case.limit = None),
        Box::new(|case| case.overwrite = false),
        Box::new(|case| case.image.truncate(case.shape.end as usize)),
        Box::new(|case| {
            let Shape { start, end, .. } = case.shape;
            let gone = (start as usize).min(case.image.len());
            case.image.drain(..gone);
            case.shape.start = 0;
            case.shape.end = end.saturating_sub(start);
        }),
    ];
    steps.extend(fewer_pages(case));
    steps.extend(smaller_pages(case));
    steps.extend(shorter(case));
    steps.extend(blanks(case));
    steps
}

/// How many pages a range has, as far as a sound one goes.
fn pages(shape: &Shape) -> u32 {
    let length = shape.end.saturating_sub(shape.start);
    length.checked_div(shape.page).unwrap_or(0).min(256)
}

/// Half of the pages less, or one.
fn fewer_pages(case: &Case) -> Vec<Step> {
    let page = case.shape.page as usize;
    let pages = pages(&case.shape) as usize;
    let halves = [pages / 2..pages, 0..pages / 2];
    let ones = (0..pages).rev().map(|p| p..p + 1);
    let gone = halves.into_iter().chain(ones);
    gone.map(|gone| -> Step { Box::new(move |case| without_pages(case, page, &gone)) })
        .collect()
}

fn without_pages(case: &mut Case, page: usize, gone: &Range<usize>) {
    let start = case.shape.start as usize;
    let (first, behind) = (start + gone.start * page, start + gone.end * page);
    let end = case.shape.end as usize;
    if behind <= case.image.len() && behind <= end {
        case.image.drain(first..behind);
        case.shape.end = (end - (behind - first)) as u32;
    }
}

/// Half of every page less, between its marks; or one word of every page.
fn smaller_pages(case: &Case) -> Vec<Step> {
    let Shape {
        start,
        end,
        page,
        word,
    } = case.shape;
    let is_sound = word > 0 && page > word && start.is_multiple_of(page);
    if !is_sound || pages(&case.shape) == 0 || end as usize > case.image.len() {
        return vec![];
    }
    let (page, word) = (page as usize, word as usize);
    let half = page / 2 / word * word;
    let halves = [half - word..page - word, word..page - half + word];
    let words = page / word;
    let most = if words > 1024 { 0 } else { words - 1 };
    let ones = (1..most).rev().map(|gone| gone * word..(gone + 1) * word);
    let gone = halves.into_iter().filter(|_| half > word).chain(ones);
    gone.map(|gone| -> Step { Box::new(move |case| without_bytes(case, page, &gone)) })
        .collect()
}

/// The bytes of this place in every page less.
fn without_bytes(case: &mut Case, page: usize, gone: &Range<usize>) {
    let (from, to) = (case.shape.start as usize, case.shape.end as usize);
    if case.shape.page as usize != page || from != 0 || to > case.image.len() {
        return;
    }
    let mut image = vec![];
    for bytes in case.image[..to].chunks(page) {
        image.extend_from_slice(&bytes[..gone.start.min(bytes.len())]);
        image.extend_from_slice(&bytes[gone.end.min(bytes.len())..]);
    }
    case.shape.page = (page - gone.len()) as u32;
    case.shape.end = image.len() as u32;
    image.extend_from_slice(&case.image[to..]);
    case.image = image;
}

/// Shorter slips and buffers, and their bytes all alike.
fn shorter(case: &Case) -> Vec<Step> {
    let lengths = |length: usize| [0, length / 2, length.saturating_sub(1)];
    let mut steps: Vec<Step> = vec![];
    for length in lengths(case.slip.len()) {
        steps.push(Box::new(move |case| case.slip.truncate(length)));
    }
    for length in lengths(case.buffer.len()) {
        steps.push(Box::new(move |case| case.buffer.truncate(length)));
    }
    steps.push(Box::new(|case| case.slip.fill(0)));
    steps.push(Box::new(|case| case.buffer.fill(0)));
    steps
}

/// Pages and words that are blank; of a large image its pages alone.
fn blanks(case: &Case) -> Vec<Step> {
    let mut steps: Vec<Step> = vec![];
    let length = case.image.len();
    for unit in [case.shape.page as usize, case.shape.word as usize] {
        if unit == 0 || length / unit > TRIES {
            continue;
        }
        for at in (0..length).step_by(unit) {
            let place = at..(at + unit).min(length);
            steps.push(Box::new(move |case| {
                if let Some(bytes) = case.image.get_mut(place.clone()) {
                    bytes.fill(0xff);
                }
            }));
        }
    }
    steps
}
