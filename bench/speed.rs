//! Fills an image with slips and empties it again, by libdock.a and by the unchanged crate without a cache; `bench/run` says how it is
//! built and asked.
//!
//!     speed time ROUNDS PAGE                     the times of both over 256 KiB, for words 4 to 32, and their ratios
//!     speed WHAT SIDE WORD PAGE PAGES            one side alone, for a counter of instructions; prints pushes, pops and a hash
//!
//! WHAT is `none` (no call at all), `fill` or `both`; SIDE is `ours` or `crate`.
#[allow(dead_code)]
#[path = "../rust/slipq/src/face.rs"]
mod face;

use core::pin::pin;
use core::task::{Context, Poll, Waker};
use embedded_storage_async::nor_flash::{
    ErrorType, MultiwriteNorFlash, NorFlash, NorFlashError, NorFlashErrorKind, ReadNorFlash,
};
use sequential_storage::Error;
use sequential_storage::cache::{Cache, CacheImpl};
use sequential_storage::queue::{QueueConfig, QueueStorage};
use std::hint::black_box;

const SLIP: usize = 60;
const BUFFER: usize = 64;

// ---- the flash of the crate: it ANDs, and no more

struct Flash<'a, const WORD: usize, const PAGE: usize>(&'a mut [u8]);

#[derive(Debug)]
enum Never {}

impl NorFlashError for Never {
    fn kind(&self) -> NorFlashErrorKind {
        match *self {}
    }
}

impl<const WORD: usize, const PAGE: usize> ErrorType for Flash<'_, WORD, PAGE> {
    type Error = Never;
}

impl<const WORD: usize, const PAGE: usize> ReadNorFlash for Flash<'_, WORD, PAGE> {
    const READ_SIZE: usize = WORD;

    #[inline]
    async fn read(&mut self, offset: u32, bytes: &mut [u8]) -> Result<(), Never> {
        let at = offset as usize;
        bytes.copy_from_slice(&self.0[at..at + bytes.len()]);
        Ok(())
    }

    fn capacity(&self) -> usize {
        self.0.len()
    }
}

impl<const WORD: usize, const PAGE: usize> NorFlash for Flash<'_, WORD, PAGE> {
    const WRITE_SIZE: usize = WORD;
    const ERASE_SIZE: usize = PAGE;

    #[inline]
    async fn erase(&mut self, from: u32, to: u32) -> Result<(), Never> {
        self.0[from as usize..to as usize].fill(0xff);
        Ok(())
    }

    #[inline]
    async fn write(&mut self, offset: u32, bytes: &[u8]) -> Result<(), Never> {
        let at = offset as usize;
        let there = &mut self.0[at..at + bytes.len()];
        for (byte, new) in there.iter_mut().zip(bytes) {
            *byte &= new;
        }
        Ok(())
    }
}

impl<const WORD: usize, const PAGE: usize> MultiwriteNorFlash for Flash<'_, WORD, PAGE> {}

/// The flash never waits, so a future is ready when it is first asked.
fn block_on<F: Future>(future: F) -> F::Output {
    match pin!(future).poll(&mut Context::from_waker(Waker::noop())) {
        Poll::Ready(output) => output,
        Poll::Pending => panic!("a future that waits"),
    }
}

// ---- the two sides

/// Pushes until the storage is full, or pops until it is empty. The slips are made beforehand; a pop is compared with the slip that was
/// pushed in its turn.
trait Side {
    fn push(&mut self, slip: &[u8]) -> bool;
    fn pop(&mut self, buffer: &mut [u8]) -> Option<usize>;
}

struct Ours<'a> {
    image: &'a mut [u8],
    shape: [u32; 4],
}

impl Side for Ours<'_> {
    fn push(&mut self, slip: &[u8]) -> bool {
        match face::push(self.image, self.shape, slip, false, None).row {
            0 => true,
            3 => false,
            row => panic!("push: row {row}"),
        }
    }

    fn pop(&mut self, buffer: &mut [u8]) -> Option<usize> {
        let answer = face::pop(self.image, self.shape, buffer, None);
        match answer.row {
            0 => Some(answer.value as usize),
            1 => None,
            row => panic!("pop: row {row}"),
        }
    }
}

struct Crate<S: NorFlash, C: CacheImpl<()>>(QueueStorage<S, C>);

impl<S: MultiwriteNorFlash<Error = Never>, C: CacheImpl<()>> Side for Crate<S, C> {
    fn push(&mut self, slip: &[u8]) -> bool {
        match block_on(self.0.push(slip, false)) {
            Ok(()) => true,
            Err(Error::FullStorage) => false,
            Err(error) => panic!("push: {error:?}"),
        }
    }

    fn pop(&mut self, buffer: &mut [u8]) -> Option<usize> {
        match block_on(self.0.pop(buffer)) {
            Ok(slip) => slip.map(|slip| slip.len()),
            Err(error) => panic!("pop: {error:?}"),
        }
    }
}

#[inline(never)]
fn fill(side: &mut impl Side, slips: &[[u8; SLIP]]) -> usize {
    let full = slips.iter().position(|slip| !side.push(slip));
    full.expect("the image takes more slips than were made")
}

#[inline(never)]
fn empty(side: &mut impl Side, slips: &[[u8; SLIP]], buffer: &mut [u8]) -> usize {
    let mut popped = 0;
    while let Some(length) = side.pop(buffer) {
        assert!(
            buffer[..length] == slips[popped],
            "pop {popped}: other bytes"
        );
        popped += 1;
    }
    popped
}

// ---- one round

/// What a round comes to. The hash is that of the image when it was full and when it was empty again.
#[derive(Clone, Copy, PartialEq, Eq, Debug, Default)]
struct Came {
    pushed: usize,
    popped: usize,
    hash: u64,
}

/// Nanoseconds of the processor, for all pushes and for all pops.
#[derive(Clone, Copy, Default)]
struct Took {
    fill: u64,
    empty: u64,
}

#[derive(Clone, Copy, PartialEq, Eq)]
enum What {
    Nothing,
    Fill,
    Both,
}

/// A shape with its type: the word and page of the crate's flash are constants.
struct Bench<const WORD: usize, const PAGE: usize>;

impl<const WORD: usize, const PAGE: usize> Bench<WORD, PAGE> {
    fn round(
        is_ours: bool,
        what: What,
        pages: usize,
        slips: &[[u8; SLIP]],
        image: &mut [u8],
    ) -> (Came, Took) {
        let mut came = Came::default();
        let mut took = Took::default();
        let image = &mut image[..PAGE * pages];
        image.fill(0xff);
        if what != What::Nothing {
            let before = clock();
            came.pushed = match is_ours {
                true => fill(&mut Self::ours(image), black_box(slips)),
                false => fill(&mut Self::theirs(image), black_box(slips)),
            };
            took.fill = clock() - before;
        }
        came.hash = hash(image);
        if what == What::Both {
            let mut buffer = [0; BUFFER];
            let buffer = black_box(&mut buffer);
            let before = clock();
            came.popped = match is_ours {
                true => empty(&mut Self::ours(image), black_box(slips), buffer),
                false => empty(&mut Self::theirs(image), black_box(slips), buffer),
            };
            took.empty = clock() - before;
        }
        came.hash = came.hash.rotate_left(1) ^ hash(image);
        (came, took)
    }

    fn ours(image: &mut [u8]) -> impl Side {
        let shape = [0, image.len() as u32, PAGE as u32, WORD as u32];
        Ours { image, shape }
    }

    fn theirs(image: &mut [u8]) -> impl Side {
        let config = QueueConfig::try_new(0..image.len() as u32).expect("a shape");
        let flash = Flash::<WORD, PAGE>(image);
        Crate(QueueStorage::new(flash, config, Cache::new_uncached()))
    }
}

/// FNV-1a
fn hash(bytes: &[u8]) -> u64 {
    bytes.iter().fold(0xcbf2_9ce4_8422_2325, |h, byte| {
        (h ^ u64::from(*byte)).wrapping_mul(0x100_0000_01b3)
    })
}

/// Slips that all differ, from a small generator of numbers.
fn slips(count: usize) -> Vec<[u8; SLIP]> {
    let mut state = 0x9e37_79b9_7f4a_7c15u64;
    let mut byte = || {
        state ^= state << 13;
        state ^= state >> 7;
        state ^= state << 17;
        (state >> 32) as u8
    };
    (0..count)
        .map(|_| core::array::from_fn(|_| byte()))
        .collect()
}

/// The time of the processor that this thread has used: a loaded machine has less say in it than in the time of day.
fn clock() -> u64 {
    #[repr(C)]
    struct Time {
        seconds: i64,
        nanoseconds: i64,
    }
    unsafe extern "C" {
        fn clock_gettime(which: i32, time: *mut Time) -> i32;
    }
    const THREAD: i32 = 3;
    let mut time = Time {
        seconds: 0,
        nanoseconds: 0,
    };
    // SAFETY: the place is valid; Linux on 64 bits has such times
    let status = unsafe { clock_gettime(THREAD, &mut time) };
    assert!(status == 0, "no clock");
    time.seconds as u64 * 1_000_000_000 + time.nanoseconds as u64
}

// ---- the program

type Round = fn(bool, What, usize, &[[u8; SLIP]], &mut [u8]) -> (Came, Took);

/// The shapes in use, by word and page.
const SHAPES: [(usize, usize, Round); 13] = [
    (4, 4096, Bench::<4, 4096>::round),
    (8, 4096, Bench::<8, 4096>::round),
    (16, 4096, Bench::<16, 4096>::round),
    (32, 4096, Bench::<32, 4096>::round),
    (4, 1024, Bench::<4, 1024>::round),
    (8, 1024, Bench::<8, 1024>::round),
    (16, 1024, Bench::<16, 1024>::round),
    (32, 1024, Bench::<32, 1024>::round),
    (4, 65536, Bench::<4, 65536>::round),
    (8, 65536, Bench::<8, 65536>::round),
    (16, 65536, Bench::<16, 65536>::round),
    (32, 65536, Bench::<32, 65536>::round),
    (4, 256, Bench::<4, 256>::round),
];

/// The image of all times: 64 pages of 4,096 bytes, 256 of 1,024 or 4 of 65,536.
const SIZE: usize = 256 * 1024;

fn median(mut values: Vec<f64>) -> f64 {
    values.sort_by(f64::total_cmp);
    values[values.len() / 2]
}

/// Both sides by turns, each first in every other round. The ratio is the median of the ratios of the rounds.
fn time(rounds: usize, page: usize) {
    let slips = slips(SIZE / SLIP);
    let mut image = vec![0xff; SIZE];
    let pages = SIZE / page;
    println!("pages of {page}: {pages}; rounds: {rounds}");
    println!("word slips | push ns: ours crate ratio | pop ns: ours crate ratio | both: ratio");
    for (word, _, round) in SHAPES.iter().filter(|shape| shape.1 == page) {
        let mut times = Vec::new();
        let mut came = Came::default();
        for r in 0..rounds {
            let mut both = [(Came::default(), Took::default()); 2];
            for turn in 0..2 {
                let side = (r + turn) % 2;
                both[side] = round(side == 0, What::Both, pages, &slips, &mut image);
            }
            assert!(
                both[0].0 == both[1].0,
                "the two sides differ: {both:?}",
                both = both.map(|b| b.0)
            );
            assert!(both[0].0.pushed == both[0].0.popped, "slips were lost");
            came = both[0].0;
            times.push(both.map(|b| b.1));
        }
        let calls = (came.pushed + 1) as f64;
        let of = |value: &dyn Fn(&[Took; 2]) -> f64| median(times.iter().map(value).collect());
        println!(
            "{word:4} {:5} | {:6.0} {:6.0} {:5.3} | {:6.0} {:6.0} {:5.3} | {:5.3}",
            came.pushed,
            of(&|t| t[0].fill as f64 / calls),
            of(&|t| t[1].fill as f64 / calls),
            of(&|t| t[0].fill as f64 / t[1].fill as f64),
            of(&|t| t[0].empty as f64 / calls),
            of(&|t| t[1].empty as f64 / calls),
            of(&|t| t[0].empty as f64 / t[1].empty as f64),
            of(&|t| (t[0].fill + t[0].empty) as f64 / (t[1].fill + t[1].empty) as f64),
        );
    }
}

fn one(what: What, is_ours: bool, word: usize, page: usize, pages: usize) {
    let shape = SHAPES
        .iter()
        .find(|shape| (shape.0, shape.1) == (word, page));
    let (_, _, round) = shape.expect("a shape in use");
    let slips = slips(page * pages / SLIP + 1);
    let mut image = vec![0xff; page * pages];
    let (came, _) = round(is_ours, what, pages, &slips, &mut image);
    println!("{} {} {:016x}", came.pushed, came.popped, came.hash);
}

fn main() {
    let arguments: Vec<String> = std::env::args().skip(1).collect();
    let words: Vec<&str> = arguments.iter().map(String::as_str).collect();
    let number = |text: &str| text.parse::<usize>().expect("a number");
    match words[..] {
        ["time", rounds, page] => time(number(rounds), number(page)),
        [what, side, word, page, pages] => {
            let what = match what {
                "none" => What::Nothing,
                "fill" => What::Fill,
                "both" => What::Both,
                _ => panic!("none, fill or both"),
            };
            let is_ours = match side {
                "ours" => true,
                "crate" => false,
                _ => panic!("ours or crate"),
            };
            one(what, is_ours, number(word), number(page), number(pages));
        }
        _ => panic!(
            "usage: speed time ROUNDS PAGE | speed none|fill|both ours|crate WORD PAGE PAGES"
        ),
    }
}
