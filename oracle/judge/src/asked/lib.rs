//! Asking the unchanged crate: one instance of it for each pair of word and page in use. Apart from the judge, since it takes a
//! minute to compile.
mod flash;

use core::ops::Range;
use core::pin::pin;
use core::task::{Context, Poll, Waker};
use flash::Flash;
pub use flash::{Chip, Fault, Store};
use sequential_storage::Error;
use sequential_storage::cache::Cache;
use sequential_storage::queue::{QueueConfig, QueueConfigError, QueueStorage};

/// A call with what it is given, but for range and image.
pub enum Ask<'a> {
    Push { slip: &'a [u8], overwrite: bool },
    Peek { buffer: &'a mut [u8] },
    Pop { buffer: &'a mut [u8] },
    FindMaxFit,
    SpaceLeft,
    EraseAll,
}

/// A call's answer by document 01's row and values; or the name of an error that has no row.
pub type Answer = Result<Vec<u32>, String>;

/// The crate for one pair of word and page.
pub struct Instance {
    pub word: u32,
    pub page: u32,
    /// what `QueueConfig::try_new` refuses, by its row
    pub check: fn(Range<u32>) -> Option<u32>,
    /// a call on a new queue without a cache
    pub ask: fn(Ask, Range<u32>, &mut Chip) -> Answer,
}

impl Instance {
    const fn whole<const WORD: usize, const PAGE: usize>() -> Instance {
        Instance {
            word: WORD as u32,
            page: PAGE as u32,
            check: check::<WORD, PAGE>,
            ask: ask::<WORD, PAGE>,
        }
    }

    /// For pairs of which only the check is asked: they compile fast.
    const fn checked<const WORD: usize, const PAGE: usize>() -> Instance {
        Instance {
            word: WORD as u32,
            page: PAGE as u32,
            check: check::<WORD, PAGE>,
            ask: |_, range, _| match check::<WORD, PAGE>(range) {
                Some(row) => Ok(vec![row]),
                None => Err("an instance without calls".into()),
            },
        }
    }
}

/// Words of so many bytes, and pages of so many words.
macro_rules! table {
    ($kind:ident: $($word:literal x $($words:literal)+;)+) => {
        &[$($(Instance::$kind::<$word, { $word * $words }>(),)+)+]
    };
}

/// The pairs in use: for each word every page from the smallest allowed up to 256 bytes and up to 16 words, and each power of two
/// from 512 to 65,536. By word and page, in order.
#[cfg(not(wrapping))]
#[rustfmt::skip]
pub static IN_USE: &[Instance] = table! { whole:
    4 x 5 6 7 8 9 10 11 12 13 14 15 16 17 18 19 20 21 22 23 24 25 26 27 28 29 30 31 32 33 34 35 36 37 38 39 40 41 42 43 44 45 46 47
        48 49 50 51 52 53 54 55 56 57 58 59 60 61 62 63 64 128 256 512 1024 2048 4096 8192 16384;
    8 x 4 5 6 7 8 9 10 11 12 13 14 15 16 17 18 19 20 21 22 23 24 25 26 27 28 29 30 31 32 64 128 256 512 1024 2048 4096 8192;
    16 x 4 5 6 7 8 9 10 11 12 13 14 15 16 32 64 128 256 512 1024 2048 4096;
    32 x 4 5 6 7 8 9 10 11 12 13 14 15 16 32 64 128 256 512 1024 2048;
};

/// The few that the selftest needs.
#[cfg(wrapping)]
pub static IN_USE: &[Instance] = table! { whole: 4 x 5 8 16384; 16 x 4; 32 x 4; };

/// Pairs that document 01 refuses, for the check alone: small pages, large words, words between the allowed ones; and pages over
/// 65,536, up to the last that 32 bits can say.
static CHECKED: &[Instance] = table! { checked:
    1 x 8 11; 2 x 4 7 16; 3 x 4 6 7 16; 5 x 2 5 6 8; 6 x 4 5 8 10923; 12 x 3 4 5; 24 x 3 4 5;
    4 x 1 2 3 4 16385 32768 536870912 1073741823; 8 x 1 2 3 8193 16384 268435456 536870911;
    16 x 1 2 3 4097 8192 134217728 268435455; 32 x 1 2 3 2049 4096 67108864 134217727;
    33 x 3 4 5; 48 x 3 4 5; 64 x 3 4 5 1025; 128 x 3 4 5; 4096 x 1 4;
};

/// Pairs that document 01 refuses, for the selftest, which asks what the crate makes of them.
static BEYOND: &[Instance] = &[
    Instance::checked::<4, 0>(),
    Instance::checked::<0, 32>(),
    Instance::checked::<4, 30>(),
    Instance::whole::<1, 32>(),
    Instance::whole::<4, 65552>(),
];

/// The instance for a word and a page, where there is one. Each call asks for it, and each look at a page, so it must be found fast.
pub fn instance(word: u32, page: u32) -> Option<&'static Instance> {
    let pair = |instance: &Instance| (instance.word, instance.page);
    match IN_USE.binary_search_by_key(&(word, page), pair) {
        Ok(at) => Some(&IN_USE[at]),
        Err(_) => {
            let mut others = CHECKED.iter().chain(BEYOND);
            others.find(|instance| pair(instance) == (word, page))
        }
    }
}

fn check<const WORD: usize, const PAGE: usize>(range: Range<u32>) -> Option<u32> {
    let refused = QueueConfig::<Flash<WORD, PAGE>>::try_new(range).err()?;
    Some(row_of(&refused))
}

fn row_of(refused: &QueueConfigError) -> u32 {
    match refused {
        QueueConfigError::StartRangeNotAtPageBoundary => 10,
        QueueConfigError::EndRangeNotAtPageBoundary => 11,
        QueueConfigError::RangeTooSmall => 12,
        QueueConfigError::PagesTooSmall => 13,
        QueueConfigError::WordSizeTooLarge => 14,
    }
}

fn ask<const WORD: usize, const PAGE: usize>(
    ask: Ask,
    range: Range<u32>,
    chip: &mut Chip,
) -> Answer {
    let config = match QueueConfig::try_new(range) {
        Ok(config) => config,
        Err(refused) => return Ok(vec![row_of(&refused)]),
    };
    let mut queue = QueueStorage::new(Flash::<WORD, PAGE>(chip), config, Cache::new_uncached());
    match ask {
        Ask::Push { slip, overwrite } => done(block_on(queue.push(slip, overwrite))),
        Ask::Peek { buffer } => {
            let front = buffer.as_ptr();
            shown(front, block_on(queue.peek(buffer)))
        }
        Ask::Pop { buffer } => {
            let front = buffer.as_ptr();
            shown(front, block_on(queue.pop(buffer)))
        }
        Ask::FindMaxFit => fit(block_on(queue.find_max_fit())),
        Ask::SpaceLeft => fit(block_on(queue.space_left()).map(Some)),
        Ask::EraseAll => done(block_on(queue.erase_all())),
    }
}

fn done(result: Result<(), Error<Fault>>) -> Answer {
    match result {
        Ok(()) => Ok(vec![0]),
        Err(error) => refused(error),
    }
}

/// The slip's length, or row 1. The slip has to stand at the buffer's front.
fn shown(front: *const u8, result: Result<Option<&mut [u8]>, Error<Fault>>) -> Answer {
    match result {
        Ok(None) => Ok(vec![1]),
        Ok(Some(slip)) if slip.as_ptr() == front => Ok(vec![0, slip.len() as u32]),
        Ok(Some(_)) => Err("a slip away from the buffer's front".into()),
        Err(error) => refused(error),
    }
}

/// A number; or row 0 alone, which means none.
fn fit(result: Result<Option<u32>, Error<Fault>>) -> Answer {
    match result {
        Ok(None) => Ok(vec![0]),
        Ok(Some(number)) => Ok(vec![0, number]),
        Err(error) => refused(error),
    }
}

fn refused(error: Error<Fault>) -> Answer {
    match error {
        Error::ItemTooBig => Ok(vec![2]),
        Error::FullStorage => Ok(vec![3]),
        Error::BufferTooSmall(needed) => Ok(vec![4, needed as u32]),
        Error::Corrupted { .. } => Ok(vec![5]),
        Error::Storage {
            value: Fault::Cut, ..
        } => Ok(vec![7]),
        other => Err(format!("{other:?}")),
    }
}

/// The flash never waits, so a future is ready when it is first asked.
fn block_on<F: Future>(future: F) -> F::Output {
    match pin!(future).poll(&mut Context::from_waker(Waker::noop())) {
        Poll::Ready(output) => output,
        Poll::Pending => panic!("a future that waits"),
    }
}
