//! What is rolled: the shape of a history, its calls and its slips.
use super::chip::{Call, Chip};
use super::dice::Dice;
use crate::failure::Failure;
use crate::shape::{Numbers, explained};
use slipq::Shape;

/// The most bytes of a range that is rolled: each cut copies the image. What is given may make it larger.
const LARGEST_RANGE: u32 = 256 << 10;
/// About the bytes that the images of a call's cuts have together: the larger the image, the fewer cuts a push has, and calls a history.
const CUT_BYTES: usize = 8 << 20;
/// One history in so many gets the largest page, one any page, one the most pages, and one any number of them.
const RARE: usize = 80;

fn is_word(word: u32) -> bool {
    matches!(word, 4 | 8 | 16 | 32)
}

/// The page sizes that go with a word and with what is given, the smallest first.
fn page_sizes(word: u32, given: Numbers) -> impl Iterator<Item = u32> {
    let start = given.start.unwrap_or(0);
    let least = u64::from(given.pages.unwrap_or(1));
    let goes = move |page: &u32| {
        let end = u64::from(start) + least * u64::from(*page);
        let fits = (smallest_page(word)..=Shape::LARGEST_PAGE).contains(page);
        let is_whole = page.is_multiple_of(word) && start.is_multiple_of(*page);
        fits && is_whole && end <= u64::from(u32::MAX)
    };
    let sizes = is_word(word).then(|| match given.page {
        Some(page) => page..=page,
        None => smallest_page(word)..=Shape::LARGEST_PAGE,
    });
    let sizes = sizes.into_iter().flatten();
    sizes.step_by(word.max(1) as usize).filter(goes)
}

fn smallest_page(word: u32) -> u32 {
    3 * word + 8_u32.next_multiple_of(word)
}

/// One of the page sizes that go: mostly a small one, which a few calls fill.
fn any_page(dice: &mut Dice, word: u32, given: Numbers) -> u32 {
    let small = smallest_page(word) + 12 * word;
    let large = LARGEST_RANGE / given.pages.unwrap_or(1).max(1);
    let rolled = dice.below(RARE);
    let most = if rolled < 2 { large } else { small };
    let up_to = |most: u32| -> Vec<u32> {
        let sizes = page_sizes(word, given);
        sizes.take_while(|page| *page <= most).collect()
    };
    // where none of those goes, what goes is taken
    let mut sizes = [most, large, u32::MAX].into_iter().map(up_to);
    let sizes = sizes.find(|sizes| !sizes.is_empty());
    let sizes = sizes.expect("a size that goes with the word was seen");
    match rolled {
        0 => sizes[sizes.len() - 1],
        _ => sizes[dice.below(sizes.len())],
    }
}

/// How many pages: mostly a few, which a few calls go round.
fn any_count(dice: &mut Dice, page: u32, start: u32) -> u32 {
    let room = (u32::MAX - start) / page.max(1);
    let most = (LARGEST_RANGE / page.max(1)).min(Shape::MOST_PAGES);
    let count = match dice.below(RARE) {
        0 => most,
        1 => 1 + dice.below(most.max(1) as usize) as u32,
        _ => [1, 2, 2, 3, 4, 5][dice.below(6)].min(most),
    };
    count.min(room).max(1)
}

/// A word and a page that go with what is given. Where none do, some that the check will refuse by the right name.
fn word_and_page(dice: &mut Dice, given: Numbers) -> Result<(u32, u32), Failure> {
    let words = given.word.map_or(vec![4, 4, 8, 16, 32], |word| vec![word]);
    let goes = |word: &u32| page_sizes(*word, given).next().is_some();
    let words: Vec<u32> = words.into_iter().filter(goes).collect();
    if !words.is_empty() {
        let word = words[dice.below(words.len())];
        return Ok((word, any_page(dice, word, given)));
    }
    let word = given.word.unwrap_or(4);
    match given.page {
        Some(page) => Ok((word, page)),
        None if !is_word(word) => Ok((word, word.saturating_mul(8))),
        None => Err(Failure::Usage(
            "no page goes with the start and the number of pages".into(),
        )),
    }
}

fn any_shape(dice: &mut Dice, given: Numbers) -> Result<Shape, Failure> {
    let (word, page) = word_and_page(dice, given)?;
    let count = any_count(dice, page, given.start.unwrap_or(page));
    let pages = given.pages.unwrap_or(count);
    let start = page.saturating_mul(dice.low(2) as u32);
    let whole = Numbers {
        start: given.start.or(Some(start)),
        page: Some(page),
        word: Some(word),
        pages: Some(pages),
    };
    Numbers::shape(whole, Numbers::default(), 0).map_err(Failure::Usage)
}

/// An erased range in an image of random bytes.
pub fn begin(dice: &mut Dice, given: Numbers) -> Result<Chip, Failure> {
    let shape = any_shape(dice, given)?;
    let length = shape.end as usize + dice.below(9);
    shape
        .check(length)
        .map_err(|error| Failure::Shape(shape, error, explained(shape, error, length)))?;
    if Vec::<u8>::new().try_reserve_exact(length).is_err() {
        return Err(Failure::Usage(format!(
            "the system does not give {length} bytes of addresses: give a lower --start"
        )));
    }
    Ok(Chip::new(shape, length, |length| dice.bytes(length)))
}

/// How many calls of a history are cut.
pub fn any_calls(dice: &mut Dice, chip: &Chip) -> usize {
    20 + dice.below(most_cuts(chip).min(180))
}

fn most_cuts(chip: &Chip) -> usize {
    (CUT_BYTES / chip.image.len()).max(20)
}

/// How many calls are not cut before the next one that is: none as a rule, but many pages would not come round otherwise, nor large ones be
/// filled.
pub fn any_uncut_calls(dice: &mut Dice, chip: &Chip) -> usize {
    dice.low((chip.shape.pages() / 6 + chip.shape.page / 4096 + 1) as usize)
}

/// A call that is to be cut at every store.
pub fn any_call(dice: &mut Dice, chip: &Chip, filling: usize) -> Call {
    match dice.below(72) {
        0..3 => Call::FindMaxFit,
        3..6 => Call::SpaceLeft,
        6..12 => Call::Peek,
        12 => Call::EraseAll,
        _ if dice.below(11) < filling => push(dice, chip, cut_length),
        _ => Call::Pop,
    }
}

/// A call that is not cut: it is there to fill a large queue, and to bring it round.
pub fn any_uncut_call(dice: &mut Dice, chip: &Chip, filling: usize) -> Call {
    match dice.below(11) < filling {
        true => push(dice, chip, filling_length),
        false => Call::Pop,
    }
}

fn push(dice: &mut Dice, chip: &Chip, length: fn(&mut Dice, &Chip) -> usize) -> Call {
    loop {
        let length = length(dice, chip);
        let slip = any_slip(dice, length);
        if chip.shape.word > 4 || !may_pass_for_a_length(data_crc(&slip)) {
            return Call::Push(slip);
        }
    }
}

/// Any length, and one that is too long; of a large image mostly a short one, and seldom one with sixteen times as many cuts.
fn cut_length(dice: &mut Dice, chip: &Chip) -> usize {
    let longest = chip.longest();
    let most = longest.min(most_cuts(chip) * chip.shape.word as usize);
    match dice.below(12) {
        0 if dice.below(16) == 0 => longest.min(16 * most),
        0 => most,
        1 => longest + 1,
        2..=5 => dice.below(most + 1),
        _ => dice.low(most + 1),
    }
}

/// Any length, and often one that leaves little of a fresh page, so that a call that is cut goes on to the next.
fn filling_length(dice: &mut Dice, chip: &Chip) -> usize {
    let longest = chip.longest();
    match dice.below(3) {
        0 => longest - dice.low(longest.min(256) + 1),
        _ => dice.below(longest + 1),
    }
}

fn any_slip(dice: &mut Dice, length: usize) -> Vec<u8> {
    match dice.below(6) {
        0 => vec![0; length],
        1 => vec![0xff; length],
        _ => dice.bytes(length),
    }
}

/// With words of 4 a header that was cut after its first word is followed by the next slip's data CRC. Read as a length and its
/// checksum, that CRC may be right, and the scan then takes the two words for a header: a false one, which demand 3 excludes.
fn may_pass_for_a_length(crc: u32) -> bool {
    let [low, high] = [crc as u16, (crc >> 16) as u16];
    let register = low.to_le_bytes().iter().fold(0xffff_u16, |register, byte| {
        (0..8).fold(register ^ u16::from(*byte), |register, _| {
            (register >> 1) ^ (if register & 1 == 1 { 0x1a2e } else { 0 })
        })
    });
    high == match !register {
        0xffff => 0xfffe,
        crc => crc,
    }
}

fn data_crc(bytes: &[u8]) -> u32 {
    let register = bytes.iter().fold(0xeeee_eeee_u32, |register, byte| {
        (0..8).fold(register ^ u32::from(*byte), |register, _| {
            (register >> 1) ^ (if register & 1 == 1 { 0x82f6_3b78 } else { 0 })
        })
    });
    match !register {
        0 => 1,
        crc if matches!(crc & 0xff, 0 | 0xff) => crc ^ 1,
        crc => crc,
    }
}

#[cfg(test)]
mod tests {
    use super::*;

    #[test]
    fn the_checksums_are_document_01s() {
        assert_eq!(data_crc(b""), 0x1111_1111);
        assert!(may_pass_for_a_length(0xe203_0000));
        assert!(!may_pass_for_a_length(0x1111_1111));
    }

    const NONE: Numbers = Numbers {
        start: None,
        page: None,
        word: None,
        pages: None,
    };

    fn start(start: u32) -> Numbers {
        Numbers {
            start: Some(start),
            ..NONE
        }
    }

    fn page(page: u32) -> Numbers {
        Numbers {
            page: Some(page),
            ..NONE
        }
    }

    fn pages(pages: u32) -> Numbers {
        Numbers {
            pages: Some(pages),
            ..NONE
        }
    }

    #[test]
    fn what_is_rolled_goes_with_what_is_given() {
        let starts = [68, 4096, 65_536, 0xfffe_0000, 0xffff_0000, 4_294_963_200];
        let sizes = [20, 64, Shape::LARGEST_PAGE];
        let given = starts.map(start).into_iter().chain(sizes.map(page));
        for given in given.chain([NONE, pages(Shape::MOST_PAGES)]) {
            for seed in 0..25 {
                let shape = any_shape(&mut Dice(seed), given).unwrap();
                let says = format!("{shape:?} for {given:?}");
                assert_eq!(shape.check(shape.end as usize), Ok(()), "{says}");
                assert!(shape.end - shape.start <= LARGEST_RANGE, "{says}");
            }
        }
    }

    #[test]
    fn what_does_not_go_is_refused() {
        assert!(any_shape(&mut Dice(1), start(4_294_967_292)).is_err());
        let row = |given| {
            let shape = any_shape(&mut Dice(1), given).unwrap();
            shape.check(1000).map_err(|error| error.row())
        };
        let word = Some(5);
        assert_eq!(row(Numbers { word, ..page(64) }), Err(9));
        assert_eq!(row(page(Shape::LARGEST_PAGE + 4)), Err(16));
        assert_eq!(row(pages(Shape::MOST_PAGES + 1)), Err(16));
    }

    #[test]
    fn the_limits_are_rolled_now_and_then() {
        let shapes: Vec<Shape> = (0..1000)
            .map(|seed| any_shape(&mut Dice(seed), NONE).unwrap())
            .collect();
        let count = |is: fn(&Shape) -> bool| shapes.iter().filter(|shape| is(shape)).count();
        assert!((3..40).contains(&count(|shape| shape.page == Shape::LARGEST_PAGE)));
        assert!((3..40).contains(&count(|shape| shape.pages() == Shape::MOST_PAGES)));
        assert!(count(|shape| shape.page <= 512 && shape.pages() <= 5) > 900);
    }
}
