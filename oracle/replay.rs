//! Makes the calls that crates/replay plays, and asks the judge what the unchanged crate answers. Built and run by oracle/replay.
//!
//! The first file named gets the calls, as records (the head of crates/replay/src/main.rt says how they are written); the second gets
//! what the program has to print. A call to which the crate has no answer is left out, and counted.
use judge::cases::{random, random_over, small};
use judge::slip::data_crc;
use judge::{Call, Case, Outcome, Shape, judge};
use std::collections::BTreeMap;
use std::fmt::Write;

/// So many bytes at most are printed whole; more are told by their checksum.
const FEW: usize = 64;

/// The room that the program has for an image, and for a slip or a buffer.
const IMAGE: usize = 294_912;
const LENT: usize = 65_536;

/// Random images of more bytes would make the files large.
const RANDOM: usize = 16_384;

const WORDS: [u32; 4] = [4, 8, 16, 32];

fn main() {
    let [_, calls_path, lines_path] = &std::env::args().collect::<Vec<_>>()[..] else {
        panic!("usage: replay CALLS LINES");
    };
    let mut record = Record::default();
    worked(&mut record);
    smallest_pages(&mut record);
    for word in WORDS {
        lengths(word, &mut record);
        refusals(word, &mut record);
        histories(word, &mut record);
        fillings(word, &mut record);
    }
    rounds(&mut record);
    for seed in 1..=24 {
        let cases = random(seed).filter(|case| case.image.len() <= RANDOM);
        for case in cases.take(70) {
            record.add(case);
        }
    }
    record.end();
    record.reach_every_row();
    std::fs::write(calls_path, &record.calls).unwrap();
    std::fs::write(lines_path, &record.lines).unwrap();
    record.sum_up();
}

// ---- the calls and the lines

/// What is written so far. A call waits for the next one, which tells whether the image of before or the one that the call left is
/// nearer to what is needed next.
#[derive(Default)]
struct Record {
    calls: Vec<u8>,
    lines: String,
    /// what the program's image holds; behind the end of a short image stands what earlier ones left there
    room: Vec<u8>,
    waiting: Option<(Case, Outcome)>,
    by_call: BTreeMap<String, usize>,
    /// by word and row
    by_row: BTreeMap<u32, BTreeMap<u32, usize>>,
    limited: usize,
    left_out: BTreeMap<String, usize>,
}

impl Record {
    fn add(&mut self, case: Case) {
        let outcome = judge(&case);
        if let Some(name) = outcome.failure {
            *self.left_out.entry(name).or_default() += 1;
            return;
        }
        assert!(case.image.len() <= IMAGE && case.slip.len().max(case.buffer.len()) <= LENT);
        self.write_waiting(Some(&case.image));
        self.count(&case, &outcome);
        self.calls.extend(changes(&self.room, &case.image));
        lay(&mut self.room, &case.image);
        self.waiting = Some((case, outcome));
    }

    fn end(&mut self) {
        self.write_waiting(None);
    }

    fn write_waiting(&mut self, next: Option<&[u8]>) {
        let Some((case, outcome)) = self.waiting.take() else {
            return;
        };
        let mut left = self.room.clone();
        lay(&mut left, &outcome.image);
        let is_on_copy =
            next.is_some_and(|next| changes(&self.room, next).len() < changes(&left, next).len());
        self.write_call(&case, is_on_copy);
        self.write_line(&case, &outcome);
        if !is_on_copy {
            self.room = left;
        }
    }

    fn write_call(&mut self, case: &Case, is_on_copy: bool) {
        let flags = u8::from(case.overwrite)
            + 2 * u8::from(case.limit.is_some())
            + 4 * u8::from(is_on_copy);
        let lent: &[u8] = match case.call {
            Call::Push => &case.slip,
            Call::Peek | Call::Pop => &case.buffer,
            _ => &[],
        };
        let Shape {
            start,
            end,
            page,
            word,
        } = case.shape;
        let limit = u32::try_from(case.limit.unwrap_or(0)).unwrap();
        let size = case.image.len() as u32;
        let numbers = [limit, size, start, end, page, word];
        write_record(&mut self.calls, letter(case.call), flags, lent, numbers);
    }

    fn write_line(&mut self, case: &Case, outcome: &Outcome) {
        let call = char::from(letter(case.call));
        let code = code(case.call, &outcome.numbers);
        let lent = match case.call {
            Call::Push => shown(&case.slip),
            Call::Peek | Call::Pop => shown(&outcome.buffer),
            _ => String::new(),
        };
        let image = shown(&outcome.image);
        writeln!(self.lines, "{call} {code:016x} {image} {lent}").unwrap();
    }

    fn count(&mut self, case: &Case, outcome: &Outcome) {
        *self.by_call.entry(case.call.to_string()).or_default() += 1;
        let rows = self.by_row.entry(case.shape.word).or_default();
        *rows.entry(outcome.numbers[0]).or_default() += 1;
        self.limited += usize::from(case.limit.is_some());
    }

    fn sum_up(&self) {
        let calls: usize = self.by_call.values().sum();
        let (input, output) = (self.calls.len(), self.lines.len());
        let limited = self.limited;
        println!("{calls} calls, {limited} of them limited; {input} bytes in, {output} bytes out");
        println!("by call: {}", counts(&self.by_call));
        let mut others = BTreeMap::new();
        for (word, rows) in &self.by_row {
            if WORDS.contains(word) {
                println!("word {word}, by row: {}", counts(rows));
            } else {
                for (row, count) in rows {
                    *others.entry(*row).or_default() += count;
                }
            }
        }
        println!("other words, by row: {}", counts(&others));
        for (name, count) in &self.left_out {
            println!("left out: {count}, {name}");
        }
    }

    /// Makes sure that the calls reach each row.
    fn reach_every_row(&self) {
        for word in WORDS {
            for row in [0, 1, 2, 3, 4, 5, 7, 9, 10, 11, 12, 13, 16, 17] {
                let is_reached = self.by_row[&word].contains_key(&row);
                assert!(is_reached, "no row {row} at word {word}");
            }
        }
        assert!(self.by_row[&64].contains_key(&14));
        assert!(self.by_row[&1].contains_key(&15));
    }
}

fn counts<T: ToString>(counts: &BTreeMap<T, usize>) -> String {
    let counts = counts
        .iter()
        .map(|(name, count)| format!("{}: {count}", name.to_string()));
    counts.collect::<Vec<_>>().join(", ")
}

fn letter(call: Call) -> u8 {
    match call {
        Call::Push => b'p',
        Call::Peek => b'k',
        Call::Pop => b'o',
        Call::FindMaxFit => b'f',
        Call::SpaceLeft => b's',
        Call::EraseAll => b'e',
    }
}

/// An answer as the one number that crates/codes makes of it: the row below 2^32, the value above, and the largest value for no fit.
fn code(call: Call, numbers: &[u32]) -> u64 {
    let value = match (call, numbers) {
        (Call::FindMaxFit, [0]) => u32::MAX,
        (_, [_, value]) => *value,
        _ => 0,
    };
    (u64::from(value) << 32) + u64::from(numbers[0])
}

fn shown(bytes: &[u8]) -> String {
    if bytes.len() > FEW {
        return format!("{:08x}", data_crc(bytes));
    }
    bytes.iter().map(|byte| format!("{byte:02x}")).collect()
}

/// A record, and behind it its bytes, unless they are all the same. `numbers` are those behind the count: at, size and the shape.
fn write_record(calls: &mut Vec<u8>, letter: u8, flags: u8, bytes: &[u8], numbers: [u32; 6]) {
    let first = bytes.first().copied().unwrap_or(0);
    let is_filled = bytes.iter().all(|byte| *byte == first);
    calls.extend([letter, flags + 8 * u8::from(is_filled), first, 0]);
    calls.extend(u32::try_from(bytes.len()).unwrap().to_le_bytes());
    calls.extend(numbers.iter().flat_map(|number| number.to_le_bytes()));
    if !is_filled {
        calls.extend(bytes);
    }
}

fn lay(room: &mut Vec<u8>, image: &[u8]) {
    if room.len() < image.len() {
        room.resize(image.len(), 0);
    }
    room[..image.len()].copy_from_slice(image);
}

/// The shortest records known that lay an image in a room: changes of what is there, or of a blank, or the whole image.
fn changes(room: &[u8], image: &[u8]) -> Vec<u8> {
    let blank = vec![0xff; image.len()];
    let mut erased = laid(0, &blank);
    erased.extend(patches(&blank, image));
    let mut all = vec![laid(0, image), erased];
    if room.len() >= image.len() {
        all.push(patches(room, image));
    }
    all.into_iter()
        .min_by_key(Vec::len)
        .expect("there are two at least")
}

fn laid(at: usize, bytes: &[u8]) -> Vec<u8> {
    let mut record = vec![];
    write_record(&mut record, b'L', 0, bytes, [at as u32, 0, 0, 0, 0, 0]);
    record
}

/// A record for each stretch that differs. Stretches that lie closer than a record is long are one.
fn patches(old: &[u8], new: &[u8]) -> Vec<u8> {
    const CLOSE: usize = 32;
    let mut stretches: Vec<(usize, usize)> = vec![];
    for at in (0..new.len()).filter(|at| old[*at] != new[*at]) {
        match stretches.last_mut() {
            Some((_, end)) if at - *end < CLOSE => *end = at + 1,
            _ => stretches.push((at, at + 1)),
        }
    }
    let records = stretches
        .into_iter()
        .flat_map(|(start, end)| laid(start, &new[start..end]));
    records.collect()
}

// ---- document 01's cases

/// Calls in a row on one image, each with the numbers that document 01 gives.
struct Worked<'a> {
    record: &'a mut Record,
    shape: Shape,
    image: Vec<u8>,
}

impl Worked<'_> {
    fn asks(&mut self, case: Case, numbers: &[u32]) -> Outcome {
        let outcome = judge(&case);
        assert_eq!(outcome.numbers, numbers, "{:?}", case.call);
        self.image.clone_from(&outcome.image);
        self.record.add(case);
        outcome
    }

    fn call(&mut self, call: Call, numbers: &[u32]) {
        let mut case = plain(call, self.shape, &self.image);
        case.buffer = vec![0; 4];
        self.asks(case, numbers);
    }

    fn push(&mut self, slip: &[u8], limit: Option<usize>, numbers: &[u32]) {
        let mut case = plain(Call::Push, self.shape, &self.image);
        case.slip = slip.to_vec();
        case.limit = limit;
        self.asks(case, numbers);
    }

    fn peek(&mut self, buffer: usize, numbers: &[u32]) -> Vec<u8> {
        let mut case = plain(Call::Peek, self.shape, &self.image);
        case.buffer = vec![0; buffer];
        self.asks(case, numbers).buffer
    }

    /// The image's first bytes; FF follows.
    fn has(&self, bytes: &[u8]) {
        assert_eq!(self.image[..bytes.len()], *bytes);
        assert!(self.image[bytes.len()..].iter().all(|byte| *byte == 0xff));
    }
}

fn worked(record: &mut Record) {
    empty_slip(&mut on(record, 32, 4));
    cut_push(&mut on(record, 32, 4));
    on(record, 32, 4).push(b"", Some(3), &[0]);
    let mut longest = on(record, 32, 4);
    longest.push(&[7; 17], None, &[2]);
    longest.push(&[7; 16], None, &[0]);
    full_page(&mut on(record, 32, 4));
    for (page, word, row) in [(16, 4, 13), (20, 4, 0), (128, 32, 0), (96, 32, 13)] {
        on(record, page, word).call(Call::EraseAll, &[row]);
    }
    let mut counts = on(record, 32, 4);
    counts.call(Call::FindMaxFit, &[0, 24]);
    counts.call(Call::SpaceLeft, &[0, 24]);
    counts.push(b"", None, &[0]);
    counts.call(Call::SpaceLeft, &[0, 16]);
    counts.call(Call::FindMaxFit, &[5]);
    let mut small_buffer = on(record, 32, 4);
    small_buffer.push(b"slip!", None, &[0]);
    small_buffer.peek(7, &[4, 8]);
    assert_eq!(small_buffer.peek(8, &[0, 5]), b"slip!\0\0\0");
    adjusted_length(&mut on(record, 8192, 4));
}

/// One erased page.
fn on(record: &mut Record, page: u32, word: u32) -> Worked<'_> {
    let shape = shape(word, page, 1);
    Worked {
        record,
        shape,
        image: erased(shape),
    }
}

fn empty_slip(page: &mut Worked) {
    page.push(b"", None, &[0]);
    page.has(&[0, 0, 0, 0, 0x11, 0x11, 0x11, 0x11, 0, 0, 0x03, 0xe2]);
    page.call(Call::Pop, &[0, 0]);
    page.has(&[0, 0, 0, 0, 0, 0, 0, 0, 0, 0, 0x03, 0xe2]);
}

/// The list is empty, and the next push begins at the free spot, 8.
fn cut_push(page: &mut Worked) {
    page.push(b"", Some(2), &[7]);
    page.call(Call::Peek, &[1]);
    page.push(b"", None, &[0]);
    assert_eq!(
        page.image[8..16],
        [0x11, 0x11, 0x11, 0x11, 0, 0, 0x03, 0xe2]
    );
}

/// Three empty slips fill the page; a fourth gives 3, also after one pop. After three pops pushing another makes 4 stores.
fn full_page(page: &mut Worked) {
    for row in [0, 0, 0, 3] {
        page.push(b"", None, &[row]);
    }
    page.call(Call::Pop, &[0, 0]);
    page.push(b"", None, &[3]);
    page.call(Call::Pop, &[0, 0]);
    page.call(Call::Pop, &[0, 0]);
    let full = page.image.clone();
    page.push(b"", Some(3), &[7]);
    page.image = full;
    page.push(b"", Some(4), &[0]);
}

/// The shortest length whose CRC would be 0xFFFF, and behind it the length whose CRC is 0xFFFE of itself.
fn adjusted_length(page: &mut Worked) {
    page.push(&[1; 6870], None, &[0]);
    assert_eq!(page.image[8..12], [0xd6, 0x1a, 0xfe, 0xff]);
    page.push(&[2; 496], None, &[0]);
    assert_eq!(page.image[6888..6892], [0xf0, 0x01, 0xfe, 0xff]);
    page.call(Call::SpaceLeft, &[0, 800]);
    page.peek(6871, &[4, 6872]);
    page.peek(6872, &[0, 6870]);
}

// ---- cases

fn smallest(word: u32) -> u32 {
    3 * word + 8_u32.next_multiple_of(word)
}

fn shape(word: u32, page: u32, pages: u32) -> Shape {
    Shape {
        start: 0,
        end: pages * page,
        page,
        word,
    }
}

fn longest(shape: Shape) -> usize {
    (shape.page - 2 * shape.word - 8_u32.next_multiple_of(shape.word)) as usize
}

/// A call on an image, with nothing else given.
fn plain(call: Call, shape: Shape, image: &[u8]) -> Case {
    Case {
        call,
        shape,
        limit: None,
        overwrite: false,
        image: image.to_vec(),
        slip: vec![],
        buffer: vec![],
    }
}

fn erased(shape: Shape) -> Vec<u8> {
    vec![0xff; shape.end as usize]
}

/// A share of the judge's small cases: one to three of the smallest pages or nearly so, every call, whole and with every limit, up
/// to one past the last store.
fn smallest_pages(record: &mut Record) {
    let mut share = Share::default();
    let mut last: Option<Case> = None;
    for case in small().filter(|case| share.has(case)) {
        // a whole call follows the last limit of the one before
        if case.limit.is_none()
            && let Some(before) = last.take()
        {
            record.add(one_more(before));
        }
        last = Some(case.clone());
        record.add(case);
    }
    if let Some(before) = last {
        record.add(one_more(before));
    }
}

fn one_more(case: Case) -> Case {
    Case {
        limit: case.limit.map(|limit| limit + 1),
        ..case
    }
}

/// A share of the images of each geometry.
#[derive(Default)]
struct Share {
    shape: Option<Shape>,
    image: Vec<u8>,
    /// how many geometries there were, and images of the last one
    shapes: usize,
    images: usize,
}

impl Share {
    fn has(&mut self, case: &Case) -> bool {
        if self.shape != Some(case.shape) {
            self.shape = Some(case.shape);
            self.shapes += 1;
            self.images = 0;
            self.image.clear();
        }
        if self.image != case.image {
            self.image.clone_from(&case.image);
            self.images += 1;
        }
        // odd steps, since the number of different pages is even; each geometry begins with another image
        let step = match case.shape.end / case.shape.page {
            1 => 9,
            2 => 311,
            _ => 1021,
        };
        (self.images + 2 * self.shapes).is_multiple_of(step)
    }
}

/// Slips about as long as the longest and as a word, and buffers about as large as what they are to hold, for pages of all sizes.
fn lengths(word: u32, record: &mut Record) {
    let small = smallest(word);
    for page in [small, small + word, 256, 512, 1024, 4096, 65_536] {
        let shape = shape(word, page, 2);
        let (word, longest) = (word as usize, longest(shape));
        let about = [
            0,
            1,
            word - 1,
            word,
            word + 1,
            longest - 1,
            longest,
            longest + 1,
        ];
        for length in about.into_iter().chain([longest + word, 0xffff, 0x1_0000]) {
            let mut push = plain(Call::Push, shape, &erased(shape));
            push.slip = vec![0x5a; length];
            record.add(push.clone());
            if length == 1 || length == longest - 1 || length == longest {
                buffers(&push, record);
            }
        }
    }
}

/// Peek and pop of the slip that a push leaves.
fn buffers(push: &Case, record: &mut Record) {
    let image = judge(push).image;
    let needed = push.slip.len().next_multiple_of(push.shape.word as usize);
    for call in [Call::Peek, Call::Pop] {
        for length in [0, push.slip.len(), needed - 1, needed, needed + 1] {
            let mut case = plain(call, push.shape, &image);
            case.buffer = vec![0xa5; length];
            record.add(case);
        }
    }
}

/// Shapes that are refused, and some that nearly are: every call, whole, with no stores, and with more than it can make.
fn refusals(word: u32, record: &mut Record) {
    let page = 8 * word;
    let image: Vec<u8> = (0..3 * page + 5).map(|at| at as u8).collect();
    let shapes = odd_shapes(word, page)
        .into_iter()
        .chain(large_shapes(word, page));
    for (index, [start, end, page, word]) in shapes.enumerate() {
        let shape = Shape {
            start,
            end,
            page,
            word,
        };
        for call in Call::ALL {
            let mut case = plain(call, shape, &image);
            case.limit = [None, Some(0), Some(u32::MAX as usize)][index % 3];
            case.slip = vec![7; 3];
            case.buffer = vec![7; 24];
            record.add(case);
        }
    }
    outside(word, record);
}

/// Start, end, page and word, for an image of three pages and five bytes: rows 9 to 15 in their order, 16, 17, then two that are
/// accepted.
fn odd_shapes(word: u32, page: u32) -> [[u32; 4]; 25] {
    let small = smallest(word) - word;
    let high = u32::MAX / page * page;
    [
        [0, page, 0, word],
        [0, page, page, 0],
        [0, 2 * (page + 1), page + 1, word],
        [1, page, page, word],
        [page - word, 2 * page, page, word],
        [0, page - 1, page, word],
        [page, 3 * page + word, page, word],
        [0, 0, page, word],
        [page, page, page, word],
        [high, high, page, word],
        [2 * page, page, page, word],
        [0, 3 * word, word, word],
        [0, small, small, word],
        [0, 256, 256, 64],
        [0, 165, 165, 33],
        [0, 40, 40, 1],
        [0, 60, 60, 6],
        [0, 155, 155, 31],
        [0, 257 * page, page, word],
        [page, 258 * page, page, word],
        [0, high, page, word],
        [0, 256 * page, page, word],
        [0, 4 * page, page, word],
        [0, 3 * page, page, word],
        [2 * page, 3 * page, page, word],
    ]
}

/// The same with large pages, and with ranges at the top of the addresses: row 16, then 17.
fn large_shapes(word: u32, page: u32) -> [[u32; 4]; 11] {
    let large = 65_536;
    let high = u32::MAX / page * page;
    let top = u32::MAX / large * large;
    let last = 0_u32.wrapping_sub(word);
    [
        [0, large + word, large + word, word],
        [0, 2 * large, 2 * large, word],
        [0, 1 << 31, 1 << 31, word],
        [0, last, last, word],
        [0, 257 * large, large, word],
        [0, top, large, word],
        [top - 257 * large, top, large, word],
        [0, large, large, word],
        [0, 256 * large, large, word],
        [top - 256 * large, top, large, word],
        [high - 256 * page, high, page, word],
    ]
}

/// Images that end before the range does, and that end with it.
fn outside(word: u32, record: &mut Record) {
    let shape = shape(word, smallest(word), 2);
    for length in [0, shape.page, shape.end - 1, shape.end] {
        for call in Call::ALL {
            record.add(plain(call, shape, &erased(shape)[..length as usize]));
        }
    }
}

/// Random histories over one geometry each, with cuts, damaged copies, broken shapes and all kinds of buffers.
fn histories(word: u32, record: &mut Record) {
    let small = smallest(word);
    let geometries = [
        (small, 1, 40),
        (small, 2, 40),
        (small, 3, 60),
        (small + word, 2, 60),
        (small + word, 5, 60),
        (small, 16, 60),
        (small, 255, 60),
        (small, 256, 60),
        (256, 3, 40),
        (512, 2, 20),
        (1024, 3, 20),
        (2048, 1, 20),
        (4096, 2, 20),
    ];
    for (page, pages, calls) in geometries {
        let seed = u64::from(word * 1_000_000 + page * 100 + pages);
        let (word, page, pages) = (word as usize, page as usize, pages as usize);
        for case in random_over(seed, word, page, pages).take(calls) {
            record.add(case);
        }
    }
}

/// Images of many pages and of large ones, the most and the largest among them, filled to the last page and emptied.
fn fillings(word: u32, record: &mut Record) {
    let small = smallest(word);
    let few = [(small, 16), (256, 5), (65_536, 4)];
    for (page, pages) in [(small, 255), (small, 256), (256, 256)]
        .into_iter()
        .chain(few)
    {
        let shape = shape(word, page, pages);
        let mut image = erased(shape);
        let words = longest(shape) / word as usize;
        let calls = filling(pages as usize, words);
        for (index, (call, overwrite, limit)) in calls.into_iter().enumerate() {
            let mut case = plain(call, shape, &image);
            case.overwrite = overwrite;
            case.limit = limit;
            // one slip to a page, or nearly so
            case.slip = vec![index as u8; longest(shape) - index % 3];
            case.buffer = vec![0xa5; page as usize];
            image = judge(&case).image;
            record.add(case);
        }
    }
}

/// 256 pages with a slip on each, filled and emptied twice round.
fn rounds(record: &mut Record) {
    let shape = shape(4, 20, 256);
    let mut image = erased(shape);
    for index in 0..4 * 257 {
        // 256 slips and one too many, as many pops and one more
        let call = [Call::Push, Call::Pop][index / 257 % 2];
        let mut case = plain(call, shape, &image);
        case.slip = vec![index as u8; 4];
        case.buffer = vec![0xa5; 4];
        let outcome = judge(&case);
        let row = match (index % 257, call) {
            (256, Call::Push) => 3,
            (256, _) => 1,
            _ => 0,
        };
        assert_eq!(outcome.numbers[0], row, "call {index} of the rounds");
        image = outcome.image;
        record.add(case);
    }
}

/// Pushes to every page, some of them cut; more pushes to the full range, then with overwriting, cut after each of the first
/// stores and within the slip, which has so many words; pops, cut and whole; pushes behind the pops; and the end of it.
fn filling(pages: usize, words: usize) -> Vec<(Call, bool, Option<usize>)> {
    let push = |limit| (Call::Push, false, limit);
    let over = |limit| (Call::Push, true, limit);
    let ask = |call| (call, false, None);
    let mut calls = vec![];
    for page in 0..pages {
        if page % 8 == 3 {
            calls.push(push(Some(page)));
        }
        calls.push(push(None));
    }
    calls.extend([push(None), push(Some(0)), ask(Call::FindMaxFit)]);
    calls.extend([ask(Call::SpaceLeft), over(Some(0)), over(Some(1))]);
    calls.extend([over(Some(2)), over(Some(words / 2)), over(Some(words))]);
    calls.extend([over(None), over(None), ask(Call::Peek)]);
    for turn in 0..(pages / 4).min(16) {
        calls.push((Call::Pop, false, Some(turn % 3)));
        calls.push(ask(Call::Pop));
    }
    calls.extend([push(None), over(Some(3)), ask(Call::SpaceLeft)]);
    calls.extend([ask(Call::FindMaxFit), ask(Call::Peek)]);
    calls.push((Call::EraseAll, false, Some(pages - 1)));
    calls.extend([ask(Call::Peek), push(None), ask(Call::EraseAll)]);
    calls
}
