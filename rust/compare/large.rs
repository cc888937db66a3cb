//! `compare --large`: the largest images that there can be, and the shapes beyond them.
use crate::progress::Progress;
use crate::sides::{Asked, End, Sides};
use crate::{difference, show, shrink};
use judge::{Call, Case, Shape};
use std::process::ExitCode;
use std::time::Instant;

const LARGEST_PAGE: u32 = 65_536;
const MOST_PAGES: u32 = 256;

pub fn run() -> ExitCode {
    let begun = Instant::now();
    let mut calls = 0;
    let end = played(&mut calls).and_then(|()| refusals(&mut calls));
    let differing = usize::from(matches!(end, Err(End::Different(..))));
    let seconds = begun.elapsed().as_secs_f64();
    println!("compare: {calls} calls, {differing} different in {seconds:.1} s");
    match end {
        Ok(()) => ExitCode::SUCCESS,
        Err(end) => {
            say(end);
            ExitCode::FAILURE
        }
    }
}

fn played(calls: &mut usize) -> Result<(), End> {
    let mut progress = Progress::new();
    for (shape, name, history) in histories() {
        let mut sides = Sides::erased(shape);
        let end = history(&mut sides, &mut progress);
        progress.end();
        *calls += sides.tale.calls;
        let Shape { page, word, .. } = shape;
        let many = if sides.pages() == 1 { "" } else { "s" };
        let pages = format!("{} page{many} of {page}", sides.pages());
        println!("{pages}, word {word}, {name}: {}", sides.tale);
        end?;
    }
    Ok(())
}

fn say(end: End) {
    match end {
        End::Missed(what) => println!("compare: {what}"),
        End::Different(what, case) => {
            println!("different: {what}");
            if let Some(case) = case {
                let case = shrink::shrunk(*case, |case| difference(case).is_some());
                println!("the smallest difference, for compare --replay:");
                show(&case);
            }
        }
    }
}

// ---- the histories

type History = fn(&mut Sides, &mut Progress) -> Result<(), End>;

fn histories() -> Vec<(Shape, &'static str, History)> {
    let mut all: Vec<(Shape, &str, History)> = vec![];
    for word in [4, 8, 16, 32] {
        let smallest = 3 * word + 8_u32.next_multiple_of(word);
        let shape = |start, page, pages| Shape {
            start,
            end: start + page * pages,
            page,
            word,
        };
        for shape in [
            shape(0, smallest, MOST_PAGES),
            shape(3 * smallest, smallest, MOST_PAGES - 1),
            shape(0, 256, MOST_PAGES),
            shape(8192, 8192, MOST_PAGES),
            shape(0, 16_384, 65),
            shape(0, 32_768, 2),
            shape(0, LARGEST_PAGE, 1),
            shape(LARGEST_PAGE, LARGEST_PAGE, 3),
            shape(0, LARGEST_PAGE, MOST_PAGES),
        ] {
            all.push((shape, "twice round", twice_round));
        }
        let largest = shape(0, LARGEST_PAGE, MOST_PAGES);
        all.push((largest, "long scans", scans));
    }
    all
}

/// Filled and emptied twice round, with cuts; each call goes on from what the one before left. Then erased, cut and whole.
fn twice_round(sides: &mut Sides, progress: &mut Progress) -> Result<(), End> {
    for round in 0..2 {
        progress.show(|| format!("compare: filling: {}", sides.tale));
        fill(sides, round)?;
        when_full(sides)?;
        overwrite(sides, lengths(sides))?;
        fill(sides, round)?;
        progress.show(|| format!("compare: emptying: {}", sides.tale));
        empty(sides)?;
        when_empty(sides)?;
    }
    if !sides.tale.is_twice_round() {
        return Err(End::Missed("that is not twice round".into()));
    }
    overwrite(sides, [sides.longest(); 8])?;
    let (half, longest) = (sides.pages() / 2, sides.longest());
    for asked in [
        Asked::plain(Call::EraseAll).cut(half),
        Asked::plain(Call::SpaceLeft),
        Asked::peek(longest),
        Asked::plain(Call::EraseAll).cut(sides.pages()),
        Asked::push(slip(2, longest)),
        Asked::plain(Call::EraseAll),
        Asked::peek(longest),
    ] {
        sides.ask(asked)?;
    }
    Ok(())
}

/// Pushes slips until the queue is full. Some are cut first, at one store or another.
fn fill(sides: &mut Sides, round: usize) -> Result<(), End> {
    let words = sides.longest() / sides.word();
    // before and behind the marks and the header's words, within the slip, at the last words, and never
    let cuts = [0, 1, 2, 3, 4, 5, words / 2, words, words + 1, words + 2];
    let lengths = lengths(sides);
    for n in 0.. {
        let slip = slip(n + 1000 * round, lengths[n % lengths.len()]);
        if n % 8 == 3 {
            let limit = cuts[n / 8 % cuts.len()];
            sides.ask(Asked::push(slip.clone()).cut(limit))?;
        }
        if sides.ask(Asked::push(slip))? == [3] {
            break;
        }
    }
    Ok(())
}

/// How long the slips are: as many pages shall be filled by about as many pushes, and few pages by more.
fn lengths(sides: &Sides) -> [usize; 8] {
    let (word, longest) = (sides.word(), sides.longest());
    if sides.pages() < 8 {
        return [60, 0, 1, word, 300, 61, 1000, 2 * word - 1];
    }
    [
        longest,
        longest - 1,
        longest / 2,
        longest / 2 + 1,
        longest,
        longest - word,
        1,
        longest,
    ]
}

/// What a full queue is seen to be, refuses, counts and shows.
fn when_full(sides: &mut Sides) -> Result<(), End> {
    let longest = sides.longest();
    sides.look()?;
    for length in [longest + 1, longest + sides.word(), 65_535, 65_536] {
        sides.ask(Asked::push(slip(3, length)))?;
        sides.ask(Asked::push(slip(3, length)).over())?;
    }
    for call in [Call::FindMaxFit, Call::SpaceLeft] {
        sides.ask(Asked::plain(call))?;
        sides.ask(Asked::plain(call).cut(0))?;
    }
    look_at_first(sides)
}

/// Overwriting pushes of slips that are so long, cut and whole.
fn overwrite(sides: &mut Sides, lengths: [usize; 8]) -> Result<(), End> {
    let words = sides.longest() / sides.word();
    let limits = [0, 1, 2, 3, 4, words / 2, words + 2].map(Some);
    let limits = limits.into_iter().chain([None; 4]);
    for (n, limit) in limits.enumerate() {
        let push = Asked::push(slip(n, lengths[n % lengths.len()])).over();
        sides.ask(Asked { limit, ..push })?;
    }
    Ok(())
}

/// Peeks at the first slip with buffers one byte too small, just large enough, and larger.
fn look_at_first(sides: &mut Sides) -> Result<(), End> {
    if let [4, needed] = sides.ask(Asked::peek(0))?[..] {
        let needed = needed as usize;
        for buffer in [needed - 1, needed, needed + 1] {
            sides.ask(Asked::peek(buffer))?;
        }
        sides.ask(Asked::pop(needed - 1))?;
    }
    Ok(())
}

/// Pops slips until none is left. Some pops are cut first; some slips are looked at before.
fn empty(sides: &mut Sides) -> Result<(), End> {
    let longest = sides.longest();
    for n in 0.. {
        match n % 16 {
            1 => drop(sides.ask(Asked::peek(longest).cut(n / 16 % 2))?),
            2 | 10 => drop(sides.ask(Asked::pop(longest).cut(n / 8 % 3))?),
            5 => look_at_first(sides)?,
            9 => drop(sides.ask(Asked::plain(Call::SpaceLeft))?),
            _ => (),
        }
        if sides.ask(Asked::pop(longest))? == [1] {
            break;
        }
    }
    Ok(())
}

/// An emptied queue is seen and counted; then two of its erased pages look as if an erase had been interrupted, and are repaired, the
/// first of them by a call that is cut behind that.
fn when_empty(sides: &mut Sides) -> Result<(), End> {
    sides.look()?;
    sides.ask(Asked::plain(Call::FindMaxFit))?;
    sides.ask(Asked::plain(Call::SpaceLeft))?;
    let (youngest, pages) = (sides.tale.youngest, sides.pages());
    for other in [youngest + 1, youngest + pages / 2] {
        let (page, word) = (sides.page(), sides.word());
        let behind = sides.shape.start as usize + (other % pages + 1) * page;
        if other % pages != youngest {
            sides.lay(|image| image[behind - word..behind].fill(0));
        }
    }
    sides.look()?;
    sides.ask(Asked::plain(Call::SpaceLeft).cut(1))?;
    sides.ask(Asked::push(slip(4, sides.longest())))?;
    Ok(())
}

/// The longest scans: pages without a good header and without room, all begun and none closed, and the last one Corrupted. A count
/// reads each word four times, repairs, and does it again.
fn scans(sides: &mut Sides, progress: &mut Progress) -> Result<(), End> {
    let (page, word) = (sides.page(), sides.word());
    sides.lay(|image| {
        image.fill(0xa5);
        for bytes in image.chunks_mut(page) {
            bytes[page - word..].fill(0xff);
        }
        let last = image.len() - page;
        image[last..last + word].fill(0xff);
        image[last + page - word..].fill(0);
    });
    sides.look()?;
    for asked in [
        Asked::plain(Call::SpaceLeft).cut(0),
        Asked::plain(Call::SpaceLeft),
        Asked::plain(Call::FindMaxFit),
        Asked::push(slip(1, 5)),
        Asked::peek(8).cut(100),
        Asked::pop(8),
        Asked::push(slip(2, 5)),
    ] {
        progress.show(|| format!("compare: long scans: {asked}"));
        sides.ask(asked)?;
    }
    Ok(())
}

/// Bytes that tell a slip and each place in it.
fn slip(n: usize, length: usize) -> Vec<u8> {
    let mut state = n as u32;
    let byte = |_| {
        state = state.wrapping_mul(1_664_525).wrapping_add(1_013_904_223);
        (state >> 24) as u8
    };
    (0..length).map(byte).collect()
}

// ---- shapes that are refused

/// Shapes at the limits and beyond them, on an image that is too small for those within: every call, whole and limited.
fn refusals(calls: &mut usize) -> Result<(), End> {
    let before = *calls;
    for shape in [4, 8, 16, 32].into_iter().flat_map(about_the_limits) {
        for (call, limit) in Call::ALL
            .iter()
            .flat_map(|call| [None, Some(0), Some(1 << 20)].map(|limit| (*call, limit)))
        {
            let case = Case {
                call,
                shape,
                limit,
                overwrite: true,
                image: slip(0, 3000),
                slip: slip(1, 16),
                buffer: vec![0xa5; 40],
            };
            *calls += 1;
            if let Some(what) = difference(&case) {
                let what = format!("{call} on {shape:?}: {what}");
                return Err(End::Different(what, Some(Box::new(case))));
            }
        }
    }
    println!("shapes at the limits and beyond: {} calls", *calls - before);
    Ok(())
}

fn about_the_limits(word: u32) -> Vec<Shape> {
    let mut shapes = vec![];
    let mut add = |start, end, page| {
        shapes.push(Shape {
            start,
            end,
            page,
            word,
        });
    };
    let last = 0_u32.wrapping_sub(word);
    let beyond = [65_537, 65_536 + word, 131_072, 1 << 31, last, u32::MAX];
    for page in [LARGEST_PAGE].into_iter().chain(beyond) {
        add(0, page, page);
        add(page, page, page);
        add(0, 0, page);
    }
    for page in [3 * word + word.max(8), 256, LARGEST_PAGE] {
        let top = u32::MAX / page * page;
        for pages in [255, 256, 257, 258, 511, 512, 65_535] {
            add(0, pages * page, page);
            add(page, (pages + 1).wrapping_mul(page), page);
            add(top - pages * page, top, page);
        }
        add(top, top, page);
        add(top, 0, page);
        add(0, top, page);
    }
    shapes
}
