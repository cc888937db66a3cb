//! Document 01's cases ("Slips on both sides of the line"), the examples of crates/paper/specs/Examples.antt that speak of a call,
//! both sides of the limits of page and pages, the differences of docs/DIFFERENCES.md, and the judge's own rules, each against what
//! the crate does.
mod differences;
mod document_01;
mod examples;
mod limits;
mod own;
mod queue;

use core::fmt::Debug;
use judge::{Shape, Store};

pub fn run() -> bool {
    let mut report = Report {
        agreed: 0,
        disagreed: 0,
    };
    println!("document 01, slips on both sides of the line");
    document_01::run(&mut report);
    println!("the paper's examples");
    examples::run(&mut report);
    println!("the largest page and the most pages");
    limits::run(&mut report);
    println!("where the crate and document 01 differ");
    differences::run(&mut report);
    println!("the judge itself");
    own::run(&mut report);
    println!("{} agree, {} disagree", report.agreed, report.disagreed);
    report.disagreed == 0
}

struct Report {
    agreed: usize,
    disagreed: usize,
}

impl Report {
    fn expect<T: Debug + PartialEq>(&mut self, says: &str, seen: T, expected: T) {
        if seen == expected {
            self.agreed += 1;
            println!("  agrees: {says}");
        } else {
            self.disagreed += 1;
            println!("  DISAGREES: {says}\n    seen     {seen:02x?}\n    expected {expected:02x?}");
        }
    }
}

fn shape(start: u32, end: u32, page: u32, word: u32) -> Shape {
    Shape {
        start,
        end,
        page,
        word,
    }
}

fn words(addresses: &[u32]) -> Vec<Store> {
    addresses.iter().copied().map(Store::Word).collect()
}
