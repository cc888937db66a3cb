//! The judge's own parts: its rules for shapes, where the crate can be asked the same; the flash; the slips it makes; its text.
use super::queue::Queue;
use super::{Report, shape};
use judge::slip::item;
use judge::{Call, Case, Shape, Store, ask_check, pages, refusal, row_by_rule};

pub fn run(report: &mut Report) {
    instances(report);
    rules_for_shapes(report);
    slips_of_cases(report);
    stores(report);
    cut_erase(report);
    text_of_cases(report);
}

/// A search finds them only while their table is in order.
fn instances(report: &mut Report) {
    let mut lost = vec![];
    for word in [4, 8, 16, 32] {
        lost.extend(pages(word).into_iter().filter(|page| {
            let one_page = shape(0, *page, *page, word);
            ask_check(&one_page) != Ok(None)
        }));
    }
    report.expect("every instance in use is found", lost, vec![]);
}

fn rules_for_shapes(report: &mut Report) {
    let mut other = vec![];
    let mut compared = 0;
    for shape in shapes() {
        for image in [0, shape.end as usize] {
            if refusal(&shape, image) != row_by_rule(&shape, image) {
                other.push(shape);
            }
        }
        compared += u32::from(shape.start <= shape.end && ask_check(&shape).is_ok());
    }
    println!("  {compared} shapes asked of the crate");
    report.expect(
        "the rules for shapes are the crate's, where it can be asked",
        other,
        vec![],
    );
}

/// Shapes on both sides of the rules. A number that passes 32 bits is none of a shape's.
fn shapes() -> Vec<Shape> {
    let mut shapes = vec![];
    let words = [1, 2, 3, 4, 5, 6, 8, 12, 16, 24, 32, 33, 48, 64, 128, 4096];
    for word in words {
        for page in page_sizes(word) {
            for start in [0, page, 3 * page, page - 1, page + word] {
                let ends = [0, 1, 2, 4, 70, 256, 257, 258, 259, 260].map(|count| count * page);
                for end in ends.into_iter().chain([2 * page - 1, start]) {
                    let [start, end, page, word] = [start, end, page, word].map(u32::try_from);
                    if let (Ok(start), Ok(end), Ok(page), Ok(word)) = (start, end, page, word) {
                        shapes.push(shape(start, end, page, word));
                    }
                }
            }
        }
    }
    shapes
}

/// Pages of so many words, and about the largest that is allowed and that there can be.
fn page_sizes(word: u64) -> Vec<u64> {
    let largest = [65_536, 131_072, 1 << 31, (1 << 32) - word].map(|page| page / word);
    let counts = [128, 256, 512, 1024].into_iter().chain(largest);
    let all = (1..=64).chain(counts.flat_map(|count| [count, count + 1]));
    all.map(|count| count * word).collect()
}

fn slips_of_cases(report: &mut Report) {
    let mut made = vec![];
    for length in 0..=16 {
        let slip = &b"a slip, or a part"[..length];
        let queue = Queue::erased(4, 32, 1).with(slip);
        let item = item(4, slip);
        if queue.image[4..4 + item.len()] != item {
            made.push(length);
        }
    }
    report.expect(
        "the slips that cases are made of are the crate's",
        made,
        vec![],
    );
}

fn stores(report: &mut Report) {
    let mut old = Queue::erased(4, 32, 1);
    old.image[13] = 0xf3;
    let mut written = item(4, &[0x5a; 8]);
    written[9] &= 0xf3;
    old.push(&[0x5a; 8]);
    report.expect("a store ANDs", &old.image[4..20], &written[..]);
}

fn cut_erase(report: &mut Report) {
    let mut two = Queue::erased(4, 20, 2);
    two.image.fill(0x5a);
    let erased = two.made(Case {
        limit: Some(1),
        ..two.case(Call::EraseAll)
    });
    report.expect(
        "erase_all with limit 1 erases the first page",
        (erased.numbers, erased.stores, erased.image),
        (
            vec![7],
            vec![Store::Page(0)],
            [[0xff; 20], [0x5a; 20]].concat(),
        ),
    );
}

fn text_of_cases(report: &mut Report) {
    let changed = judge::cases::random(1).take(1000).filter(|case| {
        let read = case.to_string().parse::<Case>();
        read.as_ref() != Ok(case)
    });
    report.expect(
        "a case is the same after printing and reading",
        changed.count(),
        0,
    );
}
