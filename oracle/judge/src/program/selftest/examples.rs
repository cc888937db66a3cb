//! The examples of crates/paper/specs/Examples.antt that speak of a call.
use super::queue::Queue;
use super::{Report, shape, words};
use judge::slip::item;
use judge::{Call, Store, refusal};

pub fn run(report: &mut Report) {
    torn_slip(report);
    bad_header(report);
    rounded_length(report);
    header_padding(report);
    bits_of_a_mark(report);
    middle_page_closed(report);
    middle_page_partial_open(report);
    order_of_the_list(report);
    corrupted_page(report);
    stores_of_calls(report);
    rows_of_shapes(report);
    sizes(report);
}

/// Pages that hold one slip of one word at most.
fn tiny(pages: u32) -> Queue {
    Queue::erased(4, 20, pages)
}

fn five_bytes() -> Queue {
    Queue::erased(4, 32, 1).with(&[1, 2, 3, 4, 5])
}

/// Two tiny pages with a slip each, of which the first is popped.
fn first_popped() -> Queue {
    let mut queue = tiny(2).with(&[1]).with(&[2]);
    queue.pop(4);
    queue
}

fn torn_slip(report: &mut Report) {
    let mut torn = tiny(1);
    torn.cut_push(&[1, 2, 3, 4], 3);
    report.expect(
        "a torn slip is live: push, the list, peek",
        (
            torn.clone().push(&[]).numbers,
            torn.list().len(),
            torn.clone().peek(4).numbers,
        ),
        (vec![3], 0, vec![1]),
    );
    report.expect(
        "a torn slip does not fit a buffer of 3",
        torn.clone().peek(3).numbers,
        vec![4, 4],
    );
    report.expect(
        "a torn slip is copied",
        torn.clone().peek(5).buffer,
        vec![0xff, 0xff, 0xff, 0xff, 7],
    );
}

fn bad_header(report: &mut Report) {
    let mut behind_junk = Queue::erased(4, 32, 1);
    behind_junk.cut_push(&[], 2);
    behind_junk.push(&[]);
    report.expect(
        "a bad header is passed by one word only",
        (behind_junk.list().len(), behind_junk.free_spot()),
        (1, Some(Store::Word(16))),
    );
}

fn rounded_length(report: &mut Report) {
    report.expect(
        "a buffer is refused by the rounded length",
        (five_bytes().peek(7).numbers, five_bytes().peek(8).numbers),
        (vec![4, 8], vec![0, 5]),
    );
}

fn header_padding(report: &mut Report) {
    let mut scratched = Queue::erased(16, 64, 1);
    scratched.image[24] = 0;
    report.expect(
        "a header's padding counts: free spot at 32",
        scratched.push(&[]).stores,
        words(&[0, 32]),
    );
}

fn bits_of_a_mark(report: &mut Report) {
    let mut four_bits = tiny(1);
    four_bits.image[0] = 0xf0;
    let mut three_bits = tiny(1);
    three_bits.image[0] = 0x1f;
    report.expect(
        "four zero bits set a mark, three do not",
        (four_bits.push(&[]).stores, three_bits.push(&[]).stores),
        (words(&[4, 8]), words(&[0, 4, 8])),
    );
}

fn middle_page_closed(report: &mut Report) {
    let mut queue = tiny(3);
    queue.mark_start(1);
    queue.mark_end(1);
    report.expect(
        "middle page Closed: youngest 2",
        queue.clone().push(&[]).stores,
        words(&[40, 44, 48]),
    );
    report.expect(
        "middle page Closed: oldest 1",
        shown_page(&queue),
        vec![0, 1],
    );
    report.expect(
        "middle page Closed: peek stores nothing",
        queue.peek(4).stores,
        vec![],
    );
}

fn middle_page_partial_open(report: &mut Report) {
    let mut queue = tiny(3);
    for page in [0, 1, 2] {
        queue.mark_start(page);
    }
    queue.mark_end(0);
    queue.mark_end(2);
    report.expect(
        "middle page PartialOpen: youngest 1",
        queue.clone().push(&[]).stores,
        words(&[24, 28]),
    );
    report.expect(
        "middle page PartialOpen: oldest 2",
        shown_page(&queue),
        vec![0, 2],
    );
    report.expect(
        "middle page PartialOpen: peek erases 2, then 0",
        queue.peek(4).stores,
        vec![Store::Page(2), Store::Page(0)],
    );
}

/// Which page peek begins at: each page gets a slip that is its number, and the number is shown.
fn shown_page(queue: &Queue) -> Vec<u32> {
    let mut queue = queue.clone();
    let size = queue.shape.page as usize;
    for page in 0..queue.image.len() / size {
        let at = page * size + 4;
        let slip = item(4, &[page as u8]);
        queue.image[at..at + slip.len()].copy_from_slice(&slip);
    }
    let outcome = queue.peek(4);
    vec![outcome.numbers[0], u32::from(outcome.buffer[0])]
}

fn order_of_the_list(report: &mut Report) {
    report.expect(
        "the list goes from the oldest page on",
        tiny(2).with(&[1]).with(&[2]).list(),
        vec![vec![1], vec![2]],
    );
}

fn corrupted_page(report: &mut Report) {
    let mut last_corrupted = tiny(2);
    last_corrupted.mark_end(1);
    report.expect(
        "a Corrupted page is erased, and the push goes on",
        last_corrupted.push(&[]).stores,
        [vec![Store::Page(1)], words(&[0, 4, 8])].concat(),
    );
}

fn stores_of_calls(report: &mut Report) {
    let one = tiny(2).with(&[1]);
    report.expect(
        "pop stores the whole header again",
        one.clone().pop(4).stores,
        words(&[4, 8]),
    );
    let peeked = first_popped().peek(4);
    report.expect(
        "peek erases a page that has nothing left",
        (peeked.stores, peeked.numbers),
        (vec![Store::Page(0)], vec![0, 1]),
    );
    report.expect(
        "push erases, closes, marks, in this order",
        first_popped().push(&[]).stores,
        [vec![Store::Page(0)], words(&[36, 0, 4, 8])].concat(),
    );
    report.expect(
        "onto an Open page: close, mark, header, payload",
        one.clone().push(&[2]).stores,
        words(&[16, 20, 24, 28, 32]),
    );
}

fn rows_of_shapes(report: &mut Report) {
    for (row, image, checked) in [
        (9, 0, shape(16, 40, 32, 5)),
        (10, 0, shape(16, 40, 32, 4)),
        (11, 0, shape(32, 40, 32, 4)),
        (12, 0, shape(64, 32, 32, 4)),
        (13, 0, shape(0, 192, 192, 64)),
        (14, 0, shape(0, 65_600, 65_600, 64)),
        (15, 0, shape(0, 65_538, 65_538, 6)),
        (16, 0, shape(0, 65_540, 65_540, 4)),
        (16, 0, shape(0, 5140, 20, 4)),
        (17, 5119, shape(0, 5120, 20, 4)),
    ] {
        report.expect(
            &format!("row {row}: {checked:?}, an image of {image}"),
            refusal(&checked, image),
            Some(row),
        );
    }
    // the largest page, the most pages, and both at the top of the addresses
    for (image, checked) in [
        (65_536, shape(0, 65_536, 65_536, 4)),
        (5120, shape(0, 5120, 20, 4)),
        (0xffff_0000, shape(0xfeff_0000, 0xffff_0000, 65_536, 4)),
    ] {
        report.expect(
            &format!("accepted: {checked:?}, an image of {image}"),
            refusal(&checked, image),
            None,
        );
    }
}

fn sizes(report: &mut Report) {
    report.expect(
        "find_max_fit on a single page after a push",
        five_bytes().call(Call::FindMaxFit),
        vec![5],
    );
    report.expect(
        "space_left over two pages",
        first_popped().call(Call::SpaceLeft),
        vec![0, 12],
    );
}
