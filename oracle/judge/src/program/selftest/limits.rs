//! Both sides of the limits of row 16: a page of 65,536 bytes, and 256 pages.
use super::queue::Queue;
use super::{Report, shape, words};
use judge::{Call, Case, Shape, Store, judge, refusal};

const LARGEST: u32 = 65_536;
const MOST: u32 = 256;

pub fn run(report: &mut Report) {
    limits(report);
    lengths(report);
    largest_page(report);
    most_pages(report);
    refused(report);
}

fn limits(report: &mut Report) {
    for word in [4, 8, 16, 32] {
        let smallest = 3 * word + 8_u32.next_multiple_of(word);
        for (page, pages, row) in [
            (LARGEST, 1, None),
            (LARGEST + word, 1, Some(16)),
            (smallest, MOST, None),
            (smallest, MOST + 1, Some(16)),
            (LARGEST, MOST, None),
            (LARGEST, MOST + 1, Some(16)),
        ] {
            let end = page * pages;
            report.expect(
                &format!("word {word}, page {page}, {pages} pages"),
                refusal(&shape(0, end, page, word), end as usize),
                row,
            );
        }
    }
}

/// The longest slip of the largest page, and longer ones: the page's room decides, and never the 65,535 of a header.
fn lengths(report: &mut Report) {
    for (length, row) in [
        (65_519, 0),
        (65_520, 0),
        (65_521, 2),
        (65_535, 2),
        (65_536, 2),
    ] {
        let mut queue = Queue::erased(4, LARGEST, 1);
        let pushed = queue.push(&vec![9; length]);
        // a start mark, a header, and the slip
        let stores = if row == 0 { 1 + 2 + 16_380 } else { 0 };
        report.expect(
            &format!("a slip of {length} on a page of 65,536"),
            (pushed.numbers, pushed.stores.len()),
            (vec![row], stores),
        );
        let list: Vec<usize> = queue.list().iter().map(Vec::len).collect();
        let waiting = if row == 0 { vec![length] } else { vec![] };
        report.expect("what waits then", list, waiting);
    }
}

fn largest_page(report: &mut Report) {
    let mut queue = Queue::erased(4, LARGEST, 1);
    report.expect(
        "a page of 65,536, erased: find_max_fit and space_left",
        (queue.call(Call::FindMaxFit), queue.call(Call::SpaceLeft)),
        (vec![0, 65_528], vec![0, 65_528]),
    );
    queue.push(&vec![9; 65_517]);
    report.expect(
        "a slip of 65,517: buffers of 65,519 and 65,520",
        (queue.peek(65_519).numbers, queue.peek(65_520).numbers),
        (vec![4, 65_520], vec![0, 65_517]),
    );
    report.expect(
        "the page is full, until the slip is popped",
        (
            queue.push(&[]).numbers,
            queue.pop(65_520).numbers,
            queue.push(&[]).stores.first().copied(),
        ),
        (vec![3], vec![0, 65_517], Some(Store::Page(0))),
    );
}

/// 256 pages with a slip on each, filled and emptied twice round.
fn most_pages(report: &mut Report) {
    let mut queue = Queue::erased(4, 20, MOST);
    for turn in 0..2 {
        let slips: Vec<Vec<u8>> = (0..MOST).map(|n| vec![turn, n as u8, 1, 2]).collect();
        let done = slips.iter().filter(|slip| queue.push(slip).numbers == [0]);
        report.expect("256 pages take 256 slips", done.count(), slips.len());
        report.expect("and not one more", queue.push(&[]).numbers, vec![3]);
        report.expect("they wait in order", queue.list() == slips, true);
        let popped = slips.iter().filter(|slip| {
            let outcome = queue.pop(4);
            outcome.numbers == [0, 4] && outcome.buffer == **slip
        });
        report.expect("all are popped, in order", popped.count(), slips.len());
        report.expect("and no more", queue.pop(4).numbers, vec![1]);
    }
    report.expect(
        "the next slip closes page 255 and goes to page 0 again",
        queue.push(&[7]).stores,
        words(&[5116, 0, 4, 8, 12]),
    );
}

/// Shapes beyond the limits, and where sums pass 2^32: each call is refused by its row, stores nothing and keeps the buffer.
fn refused(report: &mut Report) {
    for (row, refused) in beyond() {
        let kept = Call::ALL.map(|call| {
            let case = Case {
                shape: refused,
                image: vec![0x5a; 64],
                slip: vec![1; 4],
                buffer: vec![7; 8],
                ..Queue::erased(4, 32, 2).case(call)
            };
            let outcome = judge(&case);
            let is_kept = outcome.image == case.image && outcome.buffer == case.buffer;
            outcome.numbers == [row] && outcome.stores.is_empty() && is_kept
        });
        report.expect(
            &format!("{refused:?} is refused by {row}, and nothing is stored"),
            kept,
            [true; 6],
        );
    }
}

fn beyond() -> Vec<(u32, Shape)> {
    let one_page = |page, word| shape(0, page, page, word);
    let pages = |count| shape(0, count * 20, 20, 4);
    let top = 0xffff_0000;
    vec![
        (9, one_page(65_537, 4)),
        (15, one_page(65_537, 1)),
        (16, one_page(65_540, 4)),
        (16, one_page(131_072, 32)),
        (16, one_page(1 << 31, 4)),
        (16, one_page(u32::MAX - 3, 4)),
        (16, one_page(u32::MAX - 31, 32)),
        (9, one_page(u32::MAX, 4)),
        (15, one_page(u32::MAX, 1)),
        (16, pages(257)),
        (16, pages(65_536)),
        (16, pages(u32::MAX / 20)),
        (12, shape(top, top, LARGEST, 4)),
        (12, shape(top, 0, LARGEST, 4)),
        (16, shape(top - 257 * LARGEST, top, LARGEST, 4)),
        (17, shape(top - 256 * LARGEST, top, LARGEST, 4)),
        (17, shape(top - LARGEST, top, LARGEST, 4)),
        (16, shape(0, top, LARGEST, 4)),
    ]
}
