//! Cases for the judge and for what is held against it: random ones, and all of a few small geometries. A seed always gives the
//! same cases.
use crate::slip::{header, item, with_raw_data_crc};
use crate::{Call, Case, Shape, judge};

/// A small generator of random numbers (splitmix64).
struct Dice(u64);

impl Dice {
    fn number(&mut self) -> u64 {
        self.0 = self.0.wrapping_add(0x9e37_79b9_7f4a_7c15);
        let mixed = (self.0 ^ self.0 >> 30).wrapping_mul(0xbf58_476d_1ce4_e5b9);
        let mixed = (mixed ^ mixed >> 27).wrapping_mul(0x94d0_49bb_1331_11eb);
        mixed ^ mixed >> 31
    }

    fn below(&mut self, bound: usize) -> usize {
        (self.number() % bound as u64) as usize
    }

    /// Below the bound, and mostly small.
    fn low(&mut self, bound: usize) -> usize {
        let bound = self.below(bound) + 1;
        let bound = self.below(bound) + 1;
        self.below(bound)
    }

    fn one_in(&mut self, count: usize) -> bool {
        self.below(count) == 0
    }

    fn pick<T: Copy>(&mut self, choices: &[T]) -> T {
        choices[self.below(choices.len())]
    }

    fn byte(&mut self) -> u8 {
        self.number() as u8
    }

    fn bytes(&mut self, length: usize) -> Vec<u8> {
        (0..length).map(|_| self.byte()).collect()
    }
}

/// The numbers of a geometry that cases are made by.
#[derive(Clone, Copy)]
struct Sizes {
    start: usize,
    page: usize,
    word: usize,
    pages: usize,
}

impl Sizes {
    fn header(self) -> usize {
        8_usize.next_multiple_of(self.word)
    }

    /// The data between a page's marks.
    fn data(self) -> usize {
        self.page - 2 * self.word
    }

    /// The longest slip.
    fn longest(self) -> usize {
        self.data() - self.header()
    }

    fn end(self) -> usize {
        self.start + self.pages * self.page
    }

    fn shape(self) -> Shape {
        Shape {
            start: self.start as u32,
            end: self.end() as u32,
            page: self.page as u32,
            word: self.word as u32,
        }
    }
}

/// Random cases, without end. They come in histories: calls one after another on one image, some of them cut; between them calls
/// on damaged copies of the image and with broken shapes.
pub fn random(seed: u64) -> impl Iterator<Item = Case> {
    let mut dice = Dice(seed);
    let sizes = any_sizes(&mut dice);
    histories(dice, sizes, false)
}

/// The same over one geometry.
pub fn random_over(
    seed: u64,
    word: usize,
    page: usize,
    pages: usize,
) -> impl Iterator<Item = Case> {
    let sizes = Sizes {
        start: 0,
        page,
        word,
        pages,
    };
    histories(Dice(seed), sizes, true)
}

fn histories(dice: Dice, sizes: Sizes, keeps_sizes: bool) -> Histories {
    Histories {
        dice,
        sizes,
        keeps_sizes,
        image: vec![],
        mood: Mood::Mixed,
        overwrites: false,
        left: 0,
    }
}

/// The images of a history's calls have no more bytes together, but for the first ten.
const LONG_HISTORY: usize = 1 << 25;

#[derive(Clone, Copy)]
enum Mood {
    Filling,
    Emptying,
    Mixed,
}

struct Histories {
    dice: Dice,
    sizes: Sizes,
    /// whether every history has these sizes
    keeps_sizes: bool,
    image: Vec<u8>,
    mood: Mood,
    /// whether some pushes overwrite
    overwrites: bool,
    /// how many calls the history still has
    left: usize,
}

impl Iterator for Histories {
    type Item = Case;

    fn next(&mut self) -> Option<Case> {
        if self.left == 0 {
            self.begin();
        }
        self.left -= 1;
        if self.dice.one_in(12) {
            self.mood = self.dice.pick(&[
                Mood::Filling,
                Mood::Filling,
                Mood::Mixed,
                Mood::Mixed,
                Mood::Emptying,
            ]);
        }
        let mut case = self.call();
        let kind = self.dice.below(20);
        if kind < 4 {
            for _ in 0..=self.dice.low(4) {
                damage(&mut self.dice, self.sizes, &mut case.image);
            }
        }
        if matches!(case.call, Call::Peek | Call::Pop) {
            self.lend_buffer(&mut case);
        }
        if self.dice.one_in(2) {
            let stores = judge(&case).stores.len();
            case.limit = Some(self.dice.below(stores + 3));
        }
        if kind == 4 {
            break_shape(&mut self.dice, &mut case);
        } else if kind > 4 || self.dice.one_in(4) {
            // the history goes on from what this call leaves
            self.image = judge(&case).image;
        }
        Some(case)
    }
}

impl Histories {
    fn begin(&mut self) {
        let dice = &mut self.dice;
        if !self.keeps_sizes {
            self.sizes = any_sizes(dice);
        }
        let sizes = self.sizes;
        let behind = if dice.one_in(2) {
            0
        } else {
            dice.below(2 * sizes.page)
        };
        self.image = dice.bytes(sizes.start);
        self.image.resize(sizes.end(), 0xff);
        self.image.extend(dice.bytes(behind));
        match dice.below(6) {
            0 => (0..sizes.pages).for_each(|page| patch_page(dice, sizes, page, &mut self.image)),
            1 => (0..sizes.pages).for_each(|page| garble_page(dice, sizes, page, &mut self.image)),
            _ => (),
        }
        self.overwrites = dice.one_in(4);
        // of a large image fewer calls: each copies it several times
        let most = (LONG_HISTORY / self.image.len()).min(40 * sizes.pages);
        self.left = 10 + dice.low(most.max(1));
    }

    fn call(&mut self) -> Case {
        let dice = &mut self.dice;
        let (pushes, pops) = match self.mood {
            Mood::Filling => (12, 15),
            Mood::Emptying => (3, 15),
            Mood::Mixed => (8, 15),
        };
        let roll = dice.below(20);
        let call = if roll < pushes {
            Call::Push
        } else if roll < pops {
            Call::Pop
        } else if roll < 17 {
            Call::Peek
        } else if roll < 18 {
            Call::FindMaxFit
        } else if roll < 19 || !dice.one_in(4) {
            Call::SpaceLeft
        } else {
            Call::EraseAll
        };
        let slip = if call == Call::Push {
            any_slip(dice, self.sizes)
        } else {
            vec![]
        };
        Case {
            call,
            shape: self.sizes.shape(),
            limit: None,
            overwrite: self.overwrites && dice.one_in(2),
            image: self.image.clone(),
            slip,
            buffer: vec![],
        }
    }

    /// A buffer that is large enough for all, or just large enough for the first live slip, or too small by one, or any.
    fn lend_buffer(&mut self, case: &mut Case) {
        let dice = &mut self.dice;
        let length = match dice.below(8) {
            0 => dice.below(2 * self.sizes.word + 1),
            1 => dice.below(self.sizes.data() + 1),
            2 | 3 => match judge(case).numbers[..] {
                [4, needed] => needed as usize - usize::from(dice.one_in(2)),
                _ => 0,
            },
            _ => self.sizes.data() + dice.below(3),
        };
        case.buffer = if dice.one_in(2) {
            dice.bytes(length)
        } else {
            vec![0xa5; length]
        };
    }
}

/// One geometry of so many has many pages, and one has large pages: a history of such a one takes far longer than others.
const RARE: usize = 500;

fn any_sizes(dice: &mut Dice) -> Sizes {
    let word = dice.pick(&[4, 4, 4, 8, 8, 16, 32]);
    let (page, pages) = match dice.below(RARE) {
        0 => many_pages(dice, word),
        1 => large_pages(dice),
        _ => {
            let page = if dice.one_in(40) {
                dice.pick(&[512, 1024, 2048, 4096])
            } else {
                small_page(dice, word)
            };
            let pages = match dice.below(60) {
                0 => 1 + dice.below(64),
                1..=4 => 1 + dice.below(12),
                _ => 1 + dice.below(4),
            };
            (page, pages)
        }
    };
    let start = if dice.one_in(2) {
        0
    } else {
        dice.below(4) * page
    };
    Sizes {
        start,
        page,
        word,
        pages,
    }
}

fn small_page(dice: &mut Dice, word: usize) -> usize {
    let smallest = 3 * word + 8_usize.next_multiple_of(word);
    let largest = usize::max(256, 16 * word);
    smallest + word * dice.low((largest - smallest) / word + 1)
}

/// 65 to 256 pages, mostly small ones; up to 1 MiB together.
fn many_pages(dice: &mut Dice, word: usize) -> (usize, usize) {
    let page = if dice.one_in(12) {
        dice.pick(&[512, 1024, 4096])
    } else {
        small_page(dice, word)
    };
    let pages = match dice.below(4) {
        0 => 256,
        1 => dice.pick(&[65, 128, 255]),
        _ => 65 + dice.below(192),
    };
    (page, pages)
}

/// Pages of 8,192 to 65,536 bytes, mostly few of them; more than 1 MiB together once in a hundred times.
fn large_pages(dice: &mut Dice) -> (usize, usize) {
    let page = dice.pick(&[8192, 16_384, 32_768, 65_536, 65_536, 65_536]);
    let pages = match dice.below(100) {
        0 => 17 + dice.below(240),
        1..=9 => 1 + dice.below(16),
        _ => 1 + dice.below(3),
    };
    (page, pages)
}

fn any_slip(dice: &mut Dice, sizes: Sizes) -> Vec<u8> {
    let longest = sizes.longest();
    let length = match dice.below(24) {
        0 => 0,
        1 => longest,
        2 => longest + 1,
        3 => longest.saturating_sub(1),
        4..=9 => dice.below(2 * sizes.word + 2),
        10..=15 => dice.below(longest + 1),
        // about the longest that any page takes, and the longest that a header could tell
        16 if sizes.page == 65_536 || dice.one_in(100) => 65_519 + dice.below(18),
        // lengths whose CRC is 0xFFFE: of the first by itself, of the others because it may not be 0xFFFF
        17 if sizes.page > 4096 => dice.pick(&[496, 6870, 11_915, 17_969, 41_752]),
        _ => dice.low(longest + 1),
    };
    match dice.below(12) {
        0 => vec![0; length],
        1 => vec![0xff; length],
        // headers within a payload, for the scan to meet after damage
        2 | 3 => any_words(dice, sizes.word, length),
        4 if length >= 4 => {
            let raw = match dice.below(3) {
                0 => 0,
                1 => dice.number() as u32 & !0xff,
                _ => dice.number() as u32 | 0xff,
            };
            let prefix = dice.bytes(length - 4);
            with_raw_data_crc(&prefix, raw)
        }
        _ => dice.bytes(length),
    }
}

/// Bytes made of blank, zero and random words and of headers.
fn any_words(dice: &mut Dice, word: usize, length: usize) -> Vec<u8> {
    let mut bytes = vec![];
    while bytes.len() < length {
        let left = length - bytes.len();
        match dice.below(6) {
            0 => bytes.resize(bytes.len() + word, 0xff),
            1 => bytes.resize(bytes.len() + word, 0),
            2 => bytes.extend(dice.bytes(word)),
            _ => bytes.extend(any_header(dice, word, left)),
        }
    }
    bytes.truncate(length);
    bytes
}

/// A header with a right length CRC, its item about as long as what is left: popped, or live with some data CRC.
fn any_header(dice: &mut Dice, word: usize, left: usize) -> Vec<u8> {
    let room = left.saturating_sub(8_usize.next_multiple_of(word));
    let length = match dice.below(6) {
        0 => room,
        1 => room + 1,
        2 => 0,
        3 => dice.number() as usize % 65_536,
        _ => dice.below(room + 1),
    };
    let crc = match dice.below(4) {
        0 => 0,
        1 => 0x1111_1111,
        _ => dice.number() as u32,
    };
    header(word, crc, length as u16)
}

/// A mark that is set, not set, or about to be.
fn any_mark(dice: &mut Dice, word: usize) -> Vec<u8> {
    let mut mark = vec![0xff; word];
    match dice.below(8) {
        0..=2 => mark.fill(0),
        3 => mark[dice.below(word)] = 0xf0,
        4 => mark[dice.below(word)] = 0x1f,
        5 => {
            // three bits or four, in any bytes
            for _ in 0..dice.pick(&[3, 4]) {
                mark[dice.below(word)] &= !(1 << dice.below(8));
            }
        }
        _ => (),
    }
    mark
}

/// A page of some state, with a row of items, whole, popped and torn, and of bad words.
fn patch_page(dice: &mut Dice, sizes: Sizes, page: usize, image: &mut [u8]) {
    let Sizes { word, .. } = sizes;
    let mut bytes = any_mark(dice, word);
    let items = dice.low(8);
    for _ in 0..items {
        let left = (word + sizes.data()).saturating_sub(bytes.len());
        let room = left.saturating_sub(sizes.header());
        let length = dice.low(room + 1);
        let slip = dice.bytes(length);
        let mut whole = item(word, &slip);
        match dice.below(5) {
            0 => whole[..4].fill(0),
            1 => whole[sizes.header()..].fill(0xff),
            2 => whole.truncate(word),
            _ => (),
        }
        if whole.len() <= left {
            bytes.extend(whole);
        }
    }
    bytes.resize(word + sizes.data(), 0xff);
    bytes.extend(any_mark(dice, word));
    place_of(sizes, page, image).copy_from_slice(&bytes);
}

/// A page of garbage, or of one byte throughout.
fn garble_page(dice: &mut Dice, sizes: Sizes, page: usize, image: &mut [u8]) {
    let garbage = match dice.below(5) {
        0 => dice.bytes(sizes.page),
        1 => vec![dice.byte(); sizes.page],
        _ => any_words(dice, sizes.word, sizes.page),
    };
    let place = place_of(sizes, page, image);
    place.copy_from_slice(&garbage);
    if dice.one_in(2) {
        place[..sizes.word].copy_from_slice(&any_mark(dice, sizes.word));
        place[sizes.page - sizes.word..].copy_from_slice(&any_mark(dice, sizes.word));
    }
}

fn place_of(sizes: Sizes, page: usize, image: &mut [u8]) -> &mut [u8] {
    &mut image[sizes.start + page * sizes.page..][..sizes.page]
}

/// Changes something in the range.
fn damage(dice: &mut Dice, sizes: Sizes, image: &mut [u8]) {
    let Sizes { word, .. } = sizes;
    let page = dice.below(sizes.pages);
    let bytes = place_of(sizes, page, image);
    // low places are more often written
    let at = if dice.one_in(2) {
        dice.low(sizes.page)
    } else {
        dice.below(sizes.page)
    };
    let word_at = at / word * word;
    match dice.below(10) {
        0 => bytes[at] = dice.byte(),
        1 => bytes[at] ^= 1 << dice.below(8),
        2 => bytes[word_at..word_at + word].fill(dice.pick(&[0, 0xff])),
        3 => bytes[..word].copy_from_slice(&any_mark(dice, word)),
        4 | 5 => bytes[sizes.page - word..].copy_from_slice(&any_mark(dice, word)),
        6 | 7 => {
            let left = (word + sizes.data()).saturating_sub(word_at);
            let header = any_header(dice, word, left);
            let length = usize::min(header.len(), sizes.page - word_at);
            bytes[word_at..word_at + length].copy_from_slice(&header[..length]);
        }
        8 => garble_page(dice, sizes, page, image),
        _ => {
            let other = bytes.to_vec();
            let page = dice.below(sizes.pages);
            place_of(sizes, page, image).copy_from_slice(&other);
        }
    }
}

/// Makes a shape that is refused, or one that is odd.
fn break_shape(dice: &mut Dice, case: &mut Case) {
    let shape = &mut case.shape;
    let (page, word) = (shape.page, shape.word);
    match dice.below(18) {
        0 => shape.start += 1 + dice.below(page as usize - 1) as u32,
        1 => shape.end -= 1 + dice.below(page as usize - 1) as u32,
        2 => core::mem::swap(&mut shape.start, &mut shape.end),
        3 => shape.end = shape.start,
        4 => shape.page = 0,
        5 => shape.word = 0,
        6 => shape.word = dice.pick(&[1, 2, 3, 5, 6, 7, 12, 24, 31, 33, 64, 128]),
        7 => shape.word = page,
        8 => shape.page = word * dice.pick(&[1, 2, 3, 4]),
        9 => *shape = one_page(dice.pick(&[(65_600, 64), (65_538, 6), (65_537, 1), (384, 96)])),
        10 => *shape = one_page((too_large_page(dice, word), word)),
        11 => shape.end = shape.start + (257 + dice.below(3) as u32) * page,
        12 | 13 => {
            let cut = 1 + dice.low(page as usize);
            case.image.truncate(shape.end as usize - cut);
        }
        14 => shape.end += page * (1 + dice.below(3) as u32),
        15 => shape.start = u32::MAX / page * page,
        16 => {
            // the last pages that there are addresses for: a few, as many as are allowed, one more
            let pages = dice.pick(&[0, 1, 2, 255, 256, 257]);
            shape.end = u32::MAX / page * page;
            shape.start = shape.end - pages * page;
        }
        _ => {
            for number in [&mut shape.start, &mut shape.end] {
                if dice.one_in(2) {
                    *number = dice.number() as u32;
                }
            }
        }
    }
}

/// One page of so many bytes, and its word.
fn one_page((page, word): (u32, u32)) -> Shape {
    Shape {
        start: 0,
        end: page,
        page,
        word,
    }
}

/// A page over 65,536, made of words: by a word, by some, or as large as 32 bits can say.
fn too_large_page(dice: &mut Dice, word: u32) -> u32 {
    match dice.below(6) {
        0 | 1 => 65_536 + word,
        2 => 131_072,
        3 => 1 << 31,
        4 => 0_u32.wrapping_sub(word),
        _ => (dice.number() as u32).max(65_537 + word) / word * word,
    }
}

/// All cases of a few small geometries: one to three pages, each of a kind from a list, every call, whole and with every limit.
pub fn small() -> impl Iterator<Item = Case> {
    [4, 8, 16, 32].into_iter().flat_map(|word| {
        let smallest = 3 * word + 8_usize.next_multiple_of(word);
        let two_headers = smallest + word.max(8) - word;
        let sizes = move |page, pages| Sizes {
            start: 0,
            page,
            word,
            pages,
        };
        let with_all = [
            sizes(smallest, 1),
            sizes(smallest + word, 1),
            sizes(two_headers + 2 * word, 1),
            sizes(smallest, 2),
            sizes(smallest + word, 2),
        ];
        let all = with_all.map(|sizes| (sizes, contents(sizes)));
        let some = contents(sizes(smallest, 3)).into_iter().take(4).collect();
        all.into_iter()
            .chain([(sizes(smallest, 3), some)])
            .flat_map(|(sizes, contents)| images(sizes, &contents))
            .flat_map(|(sizes, image)| calls(sizes, &image))
            .flat_map(limits)
    })
}

/// What may stand between a page's marks; the first four are the usual.
fn contents(sizes: Sizes) -> Vec<Vec<u8>> {
    let Sizes { word, .. } = sizes;
    let slip: Vec<u8> = (1..=sizes.longest() as u8).collect();
    let whole = item(word, &slip);
    let mut popped = whole.clone();
    popped[..4].fill(0);
    let mut torn = whole.clone();
    torn[sizes.header()..].fill(0xff);
    let begun = whole[..word].to_vec();
    let mut spoilt = whole.clone();
    spoilt[4] ^= 1;
    let kinds = [
        vec![],
        whole,
        popped,
        torn,
        item(word, &[]),
        begun,
        spoilt,
        vec![0; sizes.data()],
    ];
    kinds
        .map(|kind| [kind, vec![0xff; sizes.data()]].concat()[..sizes.data()].to_vec())
        .to_vec()
}

/// Every image whose pages have any marks and any of the contents.
fn images(sizes: Sizes, contents: &[Vec<u8>]) -> Vec<(Sizes, Vec<u8>)> {
    let mut pages = vec![];
    for start in [0xff, 0] {
        for end in [0xff, 0] {
            for content in contents {
                let marks = [start, end].map(|byte| vec![byte; sizes.word]);
                pages.push([&marks[0][..], content, &marks[1]].concat());
            }
        }
    }
    let mut images = vec![vec![]];
    for _ in 0..sizes.pages {
        images = images
            .iter()
            .flat_map(|image: &Vec<u8>| pages.iter().map(|page| [&image[..], page].concat()))
            .collect();
    }
    images.into_iter().map(|image| (sizes, image)).collect()
}

/// Every call on an image: pushes of the empty and of the longest slip, with overwriting and without; buffers that are large
/// enough, and too small by one.
fn calls(sizes: Sizes, image: &[u8]) -> Vec<Case> {
    let case = |call, overwrite, slip, buffer| Case {
        call,
        shape: sizes.shape(),
        limit: None,
        overwrite,
        image: image.to_vec(),
        slip: vec![0x5a; slip],
        buffer: vec![0xa5; buffer],
    };
    let longest = sizes.longest();
    vec![
        case(Call::Push, false, 0, 0),
        case(Call::Push, false, longest, 0),
        case(Call::Push, true, 0, 0),
        case(Call::Push, true, longest, 0),
        case(Call::Peek, false, 0, longest + 1),
        case(Call::Peek, false, 0, longest - 1),
        case(Call::Pop, false, 0, longest + 1),
        case(Call::Pop, false, 0, longest - 1),
        case(Call::FindMaxFit, false, 0, 0),
        case(Call::SpaceLeft, false, 0, 0),
        case(Call::EraseAll, false, 0, 0),
    ]
}

/// A whole call, and the call with each limit up to the number of its stores.
fn limits(case: Case) -> impl Iterator<Item = Case> {
    let stores = judge(&case).stores.len();
    let limits = (0..=stores).map(Some);
    [None].into_iter().chain(limits).map(move |limit| Case {
        limit,
        ..case.clone()
    })
}
