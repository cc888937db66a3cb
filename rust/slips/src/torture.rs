//! Random histories in which every call is cut at every store: the list has to be the one before the call or the one after it.
//!
//! Between those a large queue is filled by calls that are only made whole.
//!
//! What is held against: a plain list in memory. The premises of demand 3 are kept: slips come by push without overwriting, a store
//! happens wholly or not at all, nobody else writes, and no false header is accepted. The last needs care with words of 4 only, see
//! `may_pass_for_a_length`.
mod chip;
mod dice;
mod rolls;
mod step;

use crate::arguments::Words;
use crate::failure::Failure;
use crate::progress::Progress;
use crate::shape::Numbers;
use crate::show::{counted, say};
use crate::system;
use chip::{Chip, List};
use dice::Dice;
use rolls::{any_call, any_calls, any_uncut_call, any_uncut_calls, begin};
use step::Step;

#[derive(Default)]
struct Figures {
    histories: u64,
    calls: u64,
    cuts: u64,
    /// the calls between, which were not cut
    uncut: u64,
    pushed: u64,
    popped: u64,
    full: u64,
    longest_list: usize,
}

impl Figures {
    fn line(&self) -> String {
        let uncut = match self.uncut {
            0 => String::new(),
            uncut => format!(
                ", {} uncut between",
                counted(uncut as usize, "call", "calls")
            ),
        };
        format!(
            "{} in {}, {}{uncut}; {} pushed, {} popped, {} refused as full, longest list {}",
            counted(self.calls as usize, "call", "calls"),
            counted(self.histories as usize, "history", "histories"),
            counted(self.cuts as usize, "cut", "cuts"),
            self.pushed,
            self.popped,
            self.full,
            self.longest_list
        )
    }
}

/// A run: so many calls from one seed.
struct Run {
    seed: u64,
    calls: u64,
    dice: Dice,
    figures: Figures,
    progress: Progress,
}

pub fn command(words: Words) -> Result<(), Failure> {
    let given = Numbers::of_words(&words)?;
    let seed = words.number("seed")?.unwrap_or(1);
    let calls = words.number("calls")?.unwrap_or(20_000);
    let [] = words.places([])?;
    system::note_interrupts();
    let figures = torture(seed, calls, given)?;
    if system::is_interrupted() {
        say(&format!(
            "torture, seed {seed}, stopped: {figures}; every list so far was the one before or the one after"
        ))?;
        return Err(Failure::Stopped);
    }
    say(&format!(
        "torture, seed {seed}: {figures}; every list was the one before or the one after"
    ))
}

/// Plays so many calls, or fewer if Ctrl-C comes. What is not given of the shape is rolled anew for each history.
fn torture(seed: u64, calls: u64, given: Numbers) -> Result<String, Failure> {
    let mut run = Run {
        seed,
        calls,
        dice: Dice(seed),
        figures: Figures::default(),
        progress: Progress::new(),
    };
    while !run.is_over() {
        let chip = begin(&mut run.dice, given)?;
        run.figures.histories += 1;
        let played = run.history(chip);
        if played.is_err() || run.is_over() {
            run.progress.end();
        }
        played?;
    }
    Ok(run.figures.line())
}

impl Run {
    fn is_over(&self) -> bool {
        self.figures.calls >= self.calls || system::is_interrupted()
    }

    fn history(&mut self, mut chip: Chip) -> Result<(), Failure> {
        let mut list = vec![];
        let mut filling = 6;
        for _ in 0..any_calls(&mut self.dice, &chip) {
            if self.is_over() {
                break;
            }
            if self.dice.below(15) == 0 {
                filling = 2 + self.dice.below(8);
            }
            for _ in 0..any_uncut_calls(&mut self.dice, &chip) {
                list = self.uncut_call(&mut chip, &list, filling)?;
                self.figures.uncut += 1;
            }
            list = self.call(&mut chip, &list, filling)?;
            self.figures.calls += 1;
            self.figures.longest_list = self.figures.longest_list.max(list.len());
            let (calls, figures) = (self.calls, &self.figures);
            self.progress
                .show(|| format!("of {calls}: {}", figures.line()));
        }
        Ok(())
    }

    /// Makes one call. The history goes on from the whole call, or from one of the cut ones.
    fn call(&mut self, chip: &mut Chip, list: &List, filling: usize) -> Result<List, Failure> {
        let call = any_call(&mut self.dice, chip, filling);
        let before = chip.copy();
        let step = Step {
            before: &before,
            call: &call,
            list,
        };
        let played = step.play(chip, &mut self.figures);
        let (cuts, after) = played.map_err(|says| self.fault(says))?;
        let limit = self.dice.below(3 * cuts.max(1));
        if limit >= cuts {
            return Ok(after);
        }
        let (image, list) = step.cut(limit).map_err(|says| self.fault(says))?;
        chip.image = image;
        Ok(list)
    }

    /// Makes one call whole, and only its answer is looked at: what it stored shows in the lists of the next call.
    fn uncut_call(
        &mut self,
        chip: &mut Chip,
        list: &List,
        filling: usize,
    ) -> Result<List, Failure> {
        let call = any_uncut_call(&mut self.dice, chip, filling);
        let before = chip.copy();
        let step = Step {
            before: &before,
            call: &call,
            list,
        };
        let made = step.make(chip, &mut self.figures);
        let (_, after) = made.map_err(|says| self.fault(says))?;
        Ok(after)
    }

    fn fault(&self, says: String) -> Failure {
        let (number, seed) = (self.figures.calls + 1, self.seed);
        Failure::Fault(format!("call {number} of seed {seed}: {says}"))
    }
}

#[cfg(test)]
mod tests {
    use super::*;
    use slipq::Shape;

    #[test]
    fn a_short_torture() {
        let says = torture(1, 150, Numbers::default()).unwrap();
        assert!(says.starts_with("150 calls in "), "{says}");
    }

    #[test]
    fn a_torture_at_the_top_of_the_addresses() {
        let start = Numbers {
            start: Some(4_294_963_200),
            ..Numbers::default()
        };
        let says = torture(1, 40, start).unwrap();
        assert!(says.starts_with("40 calls in "), "{says}");
    }

    #[test]
    fn a_torture_of_the_most_pages() {
        let pages = Numbers {
            page: Some(20),
            pages: Some(Shape::MOST_PAGES),
            ..Numbers::default()
        };
        // so filled that pages are gone round and a push is refused
        let says = torture(3, 100, pages).unwrap();
        assert!(says.starts_with("100 calls in "), "{says}");
        assert!(!says.contains(" 0 refused as full"), "{says}");
    }

    #[test]
    fn a_torture_of_the_largest_pages() {
        for word in [4, 32] {
            let page = Numbers {
                page: Some(Shape::LARGEST_PAGE),
                word: Some(word),
                ..Numbers::default()
            };
            let says = torture(3, 12, page).unwrap();
            assert!(says.starts_with("12 calls in "), "{says}");
        }
    }

    #[test]
    fn a_torture_of_the_largest_page_at_the_top_of_the_addresses() {
        let top = Numbers {
            start: Some(0xfffe_0000),
            page: Some(Shape::LARGEST_PAGE),
            word: Some(16),
            pages: Some(1),
        };
        let says = torture(1, 10, top).unwrap();
        assert!(says.starts_with("10 calls in 1 history, "), "{says}");
    }
}
