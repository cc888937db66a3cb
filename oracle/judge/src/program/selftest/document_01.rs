//! Document 01's cases, "Slips on both sides of the line".
use super::queue::Queue;
use super::{Report, shape};
use judge::slip::with_raw_data_crc;
use judge::{Call, Case, Store, ask, refusal};

pub fn run(report: &mut Report) {
    length_crc(report);
    data_crcs(report);
    empty_slip(report);
    cut_pushes(report);
    longest_slip(report);
    full_page(report);
    smallest_pages(report);
    sizes(report);
    buffers(report);
    fit_after_a_push(report);
}

fn erased() -> Queue {
    Queue::erased(4, 32, 1)
}

fn length_crc(report: &mut Report) {
    // the shortest length whose CRC needs it; and the longest, for which document 01 allows no page that is large enough
    for (page, length) in [(65_536, 6870_u16), (65_552, 65_535)] {
        let push = Case {
            slip: vec![1; length.into()],
            ..Queue::erased(4, page, 1).case(Call::Push)
        };
        let outcome = ask(&push, 0, 0..page);
        let [low, high] = length.to_le_bytes();
        report.expect(
            &format!("final length CRC 0xFFFF gives 0xFFFE: length {length}"),
            (outcome.numbers, &outcome.image[8..12]),
            (vec![0], &[low, high, 0xfe, 0xff][..]),
        );
    }
}

fn data_crcs(report: &mut Report) {
    for (raw, adjusted) in [
        (0, 1_u32),
        (0x1234_5600, 0x1234_5601),
        (0x1234_56ff, 0x1234_56fe),
        (0x1234_5678, 0x1234_5678),
    ] {
        let queue = erased().with(&with_raw_data_crc(b"", raw));
        report.expect(
            &format!("raw data CRC {raw:#x} gives {adjusted:#x}"),
            queue.image[4..8].to_vec(),
            adjusted.to_le_bytes().to_vec(),
        );
    }
}

fn empty_slip(report: &mut Report) {
    let mut queue = erased();
    let pushed = queue.push(&[]);
    report.expect(
        "empty slip: data CRC 0x11111111, length CRC 0xE203",
        &queue.image[4..12],
        &[0x11, 0x11, 0x11, 0x11, 0, 0, 0x03, 0xe2],
    );
    let mut page = vec![0, 0, 0, 0, 0x11, 0x11, 0x11, 0x11, 0x00, 0x00, 0x03, 0xe2];
    page.resize(32, 0xff);
    report.expect("the page after pushing it", &queue.image, &page);
    queue.pop(0);
    page[4..8].fill(0);
    report.expect("after pop the 11s are 00", &queue.image, &page);
    report.expect(
        "that push makes 3 stores",
        (pushed.stores.len(), pushed.numbers),
        (3, vec![0]),
    );
}

fn cut_pushes(report: &mut Report) {
    let mut torn = erased();
    report.expect("limit 2: cut", torn.cut_push(&[], 2).numbers, vec![7]);
    report.expect("limit 2: list empty", torn.list().len(), 0);
    report.expect(
        "limit 2: free spot at 8",
        torn.free_spot(),
        Some(Store::Word(8)),
    );
    report.expect("limit 3: done", erased().cut_push(&[], 3).numbers, vec![0]);
}

fn longest_slip(report: &mut Report) {
    report.expect(
        "16 bytes accepted",
        erased().push(&[7; 16]).numbers,
        vec![0],
    );
    report.expect("17 gives 2", erased().push(&[7; 17]).numbers, vec![2]);
}

fn full_page(report: &mut Report) {
    let mut three = erased();
    for _ in 0..3 {
        report.expect(
            "three empty slips fill the page",
            three.push(&[]).numbers,
            vec![0],
        );
    }
    report.expect("a fourth gives 3", three.clone().push(&[]).numbers, vec![3]);
    three.pop(0);
    report.expect(
        "also after one pop",
        three.clone().push(&[]).numbers,
        vec![3],
    );
    three.pop(0);
    three.pop(0);
    let again = three.push(&[]);
    report.expect(
        "after three pops pushing another makes 4 stores and is done",
        (again.stores.len(), again.numbers),
        (4, vec![0]),
    );
}

fn smallest_pages(report: &mut Report) {
    for (word, page, row) in [
        (4, 16, Some(13)),
        (4, 20, None),
        (32, 128, None),
        (32, 96, Some(13)),
    ] {
        report.expect(
            &format!("word {word}, page {page}"),
            refusal(&shape(0, page, page, word), page as usize),
            row,
        );
    }
}

fn sizes(report: &mut Report) {
    report.expect(
        "find_max_fit on an erased page says 24",
        erased().call(Call::FindMaxFit),
        vec![0, 24],
    );
    report.expect(
        "space_left: 24 erased",
        erased().call(Call::SpaceLeft),
        vec![0, 24],
    );
    report.expect(
        "space_left: 16 after one empty slip",
        erased().with(&[]).call(Call::SpaceLeft),
        vec![0, 16],
    );
}

fn buffers(report: &mut Report) {
    let five = erased().with(&[1, 2, 3, 4, 5]);
    report.expect(
        "a 5-byte slip: buffer 7 gives 4 with n = 8",
        (five.clone().peek(7).numbers, five.clone().pop(7).numbers),
        (vec![4, 8], vec![4, 8]),
    );
    report.expect(
        "a 5-byte slip: buffer 8 done",
        (five.clone().peek(8).numbers, five.clone().pop(8).numbers),
        (vec![0, 5], vec![0, 5]),
    );
}

fn fit_after_a_push(report: &mut Report) {
    let mut empty = erased().with(&[]);
    let mut five = erased().with(&[1, 2, 3, 4, 5]);
    report.expect(
        "single page after a push: find_max_fit gives 5",
        (empty.call(Call::FindMaxFit), five.call(Call::FindMaxFit)),
        (vec![5], vec![5]),
    );
}
