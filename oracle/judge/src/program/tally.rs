//! Asks many cases, counts the answers, and tests what must hold of every outcome.
use judge::{Case, Outcome, Store, judge};
use std::collections::BTreeMap;

/// How many faults are printed in full.
const MOST_PRINTED: usize = 20;

pub fn run(cases: impl Iterator<Item = Case>) -> bool {
    let mut asked = 0_u64;
    let mut answers = BTreeMap::<String, u64>::new();
    let mut failures = BTreeMap::<String, (u64, String)>::new();
    let mut faults = 0;
    for case in cases {
        asked += 1;
        let outcome = judge(&case);
        let Some(row) = outcome.numbers.first() else {
            let name = outcome.failure.unwrap_or_default();
            let (count, _) = failures.entry(name).or_insert((0, case.to_string()));
            *count += 1;
            continue;
        };
        *answers
            .entry(format!("{:12} row {row:2}", case.call.to_string()))
            .or_default() += 1;
        if let Err(fault) = sound(&case, &outcome) {
            faults += 1;
            if faults <= MOST_PRINTED {
                println!("{fault}: {case}");
            }
        }
    }
    for (answer, count) in answers {
        println!("{answer} {count:9}");
    }
    for (name, (count, case)) in &failures {
        println!("{name}: {count}, first for: {case}");
    }
    let failed: u64 = failures.values().map(|(count, _)| count).sum();
    println!("{asked} calls, {failed} without an answer, {faults} unsound");
    failed == 0 && faults == 0
}

/// What holds of every outcome: bytes outside the range stay; refusals keep what document 01 says they keep; and the call with a
/// limit does what the whole call does, up to the limit.
fn sound(case: &Case, outcome: &Outcome) -> Result<(), &'static str> {
    keeps(case, outcome)?;
    match case.limit {
        Some(limit) => cut(case, outcome, limit),
        None if outcome.numbers[0] == 7 => Err("a cut without a limit"),
        None => Ok(()),
    }
}

/// What every call keeps, and what a refusal keeps.
fn keeps(case: &Case, outcome: &Outcome) -> Result<(), &'static str> {
    let row = outcome.numbers[0];
    let (start, end) = (case.shape.start as usize, case.shape.end as usize);
    if matches!(row, 2 | 9..=17) {
        if outcome.image != case.image || !outcome.stores.is_empty() {
            return Err("a refusal that stores");
        }
    } else if outcome.image[..start] != case.image[..start]
        || outcome.image[end..] != case.image[end..]
    {
        return Err("a byte outside the range");
    }
    if matches!(row, 2 | 3 | 9..=17) && outcome.buffer != case.buffer {
        return Err("a refusal that fills the buffer");
    }
    Ok(())
}

/// What a call with a limit does: as much of the whole call, and its last store is one store on from a limit of one less.
fn cut(case: &Case, outcome: &Outcome, limit: usize) -> Result<(), &'static str> {
    let with_limit = |limit| {
        judge(&Case {
            limit,
            ..case.clone()
        })
    };
    let whole = with_limit(None);
    if limit >= whole.stores.len() {
        if *outcome != whole {
            return Err("a limit that is not reached, and makes a difference");
        }
        return Ok(());
    }
    if outcome.numbers[0] != 7 || outcome.stores[..] != whole.stores[..limit] {
        return Err("a limit that is not kept");
    }
    if limit > 0 {
        let before = with_limit(Some(limit - 1)).image;
        if !is_one_store(case, &before, &outcome.image, outcome.stores[limit - 1]) {
            return Err("a store that is not one word or page");
        }
    } else if outcome.image != case.image {
        return Err("a store before the first");
    }
    Ok(())
}

/// Whether one store leads from one image to the other: one word in which bits went, or one page that is FF.
fn is_one_store(case: &Case, before: &[u8], after: &[u8], store: Store) -> bool {
    let (at, length) = match store {
        Store::Word(address) => (address, case.shape.word),
        Store::Page(page) => (case.shape.start + page * case.shape.page, case.shape.page),
    };
    let place = at as usize..(at + length) as usize;
    let is_made = match store {
        Store::Word(_) => before[place.clone()]
            .iter()
            .zip(&after[place.clone()])
            .all(|(old, new)| old & new == *new),
        Store::Page(_) => after[place.clone()].iter().all(|byte| *byte == 0xff),
    };
    is_made
        && before[..place.start] == after[..place.start]
        && before[place.end..] == after[place.end..]
}
