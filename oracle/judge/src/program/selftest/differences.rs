//! The differences of docs/DIFFERENCES.md, by their numbers there.
use super::queue::Queue;
use super::{Report, shape, words};
use judge::slip::header;
use judge::{Call, Case, Outcome, Store, ask, ask_check, judge, refusal};

/// Whether a sum that passes its type panics in this build.
const IS_CHECKED: bool = !cfg!(wrapping);

pub fn run(report: &mut Report) {
    end_below_start(report);
    item_past_the_last_address(report);
    page_or_word_of_0(report);
    shapes_the_crate_takes(report);
    image_ends_within_the_range(report);
}

fn fails_with(outcome: Outcome, part: &str) -> bool {
    outcome.failure.unwrap_or_default().contains(part)
}

/// 1: end below start
fn end_below_start(report: &mut Report) {
    let backward = shape(32, 0, 32, 4);
    let case = Case {
        shape: backward,
        ..Queue::erased(4, 32, 2).case(Call::Push)
    };
    let outcome = ask(&case, 0, 0..64);
    if IS_CHECKED {
        report.expect(
            "1: an end below its start panics",
            fails_with(outcome, "subtract with overflow"),
            true,
        );
    } else {
        report.expect(
            "1: an end below its start works on one page",
            (outcome.numbers, outcome.stores),
            (vec![0], words(&[32, 36, 40])),
        );
    }
    report.expect(
        "1: by document 01 it is 12",
        refusal(&backward, 64),
        Some(12),
    );
}

/// 2: an item whose end passes 2^32
fn item_past_the_last_address(report: &mut Report) {
    let start = 0xffff_ffc0;
    let mut high = Queue::erased(4, 32, 1);
    high.shape = shape(start, start + 32, 32, 4);
    high.image[..4].fill(0);
    high.image[4..12].copy_from_slice(&header(4, 1, 52));
    let expected = if IS_CHECKED {
        "add with overflow"
    } else {
        "read outside the range"
    };
    for call in [Call::Push, Call::Peek] {
        let case = Case {
            buffer: vec![7; 52],
            ..high.case(call)
        };
        report.expect(
            &format!("2: an item whose end passes 2^32, {call}: {expected}"),
            fails_with(ask(&case, start, start..start + 32), expected),
            true,
        );
    }
    let mut lower = high;
    lower.shape = shape(0, 32, 32, 4);
    report.expect(
        "2: lower down it is no item, and one word is passed",
        (lower.list().len(), lower.free_spot()),
        (0, Some(Store::Word(12))),
    );
}

/// 3: page or word of 0
fn page_or_word_of_0(report: &mut Report) {
    let divided = "divisor of zero";
    report.expect(
        "3: a word of 0 panics",
        ask_check(&shape(0, 32, 32, 0)).is_err_and(|panic| panic.contains(divided)),
        true,
    );
    for (row, zero) in [
        (10, shape(32, 32, 0, 4)),
        (11, shape(0, 32, 0, 4)),
        (13, shape(0, 0, 0, 4)),
    ] {
        report.expect(
            &format!("3: a page of 0, {zero:?}: {row}; document 01 says 9"),
            (ask_check(&zero), refusal(&zero, 32)),
            (Ok(Some(row)), Some(9)),
        );
    }
}

/// 4, 5, 6: shapes that the crate takes
fn shapes_the_crate_takes(report: &mut Report) {
    for (number, row, taken) in [
        (4, 9, shape(0, 30, 30, 4)),
        (5, 15, shape(0, 32, 32, 1)),
        (6, 16, shape(0, 65_540, 65_540, 4)),
        (6, 16, shape(0, 5140, 20, 4)),
    ] {
        report.expect(
            &format!("{number}: the crate takes {taken:?}, document 01 says {row}"),
            (ask_check(&taken), refusal(&taken, 65_540)),
            (Ok(None), Some(row)),
        );
    }
    report.expect(
        "5: a word of 1 works",
        ask(&Queue::erased(1, 32, 1).case(Call::Push), 0, 0..32).numbers,
        vec![0],
    );
    report.expect(
        "6: 257 pages work",
        ask(&Queue::erased(4, 20, 257).case(Call::Push), 0, 0..5140).numbers,
        vec![0],
    );
}

/// 7: an image that ends within the range
fn image_ends_within_the_range(report: &mut Report) {
    let mut short = Queue::erased(4, 32, 1);
    short.image.pop();
    let case = short.case(Call::Push);
    report.expect(
        "7: an image of 31 bytes: Storage; document 01 says 17",
        (
            fails_with(ask(&case, 0, 0..32), "Storage"),
            judge(&case).numbers,
        ),
        (true, vec![17]),
    );
}
