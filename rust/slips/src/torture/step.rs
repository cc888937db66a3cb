//! One call of a history, made whole and cut at every store, and what is said where its list is wrong.
use super::Figures;
use super::chip::{Answer, Call, Chip, List};
use crate::show::hex;
use crate::system;
use slipq::{Error, Shape};
use std::fmt::Write;

/// One call of a history.
pub struct Step<'a> {
    pub before: &'a Chip,
    pub call: &'a Call,
    pub list: &'a List,
}

impl Step<'_> {
    /// Makes the call whole on the chip. Gives its answer, and the list that it has to leave. The chip's own list is not looked at.
    pub fn make(
        &self,
        chip: &mut Chip,
        figures: &mut Figures,
    ) -> Result<(Result<Answer, Error>, List), String> {
        let answer = chip.make(self.call, None);
        let after = self.expected(&answer, chip, figures);
        match after.and_then(|after| self.test_outside(chip).map(|()| after)) {
            Ok(after) => Ok((answer, after)),
            Err(says) => Err(self.fault(None, says, &answer)),
        }
    }

    /// Makes the call on the chip, and on copies with every limit. Gives how many limits cut it, and the list after the whole call.
    pub fn play(&self, chip: &mut Chip, figures: &mut Figures) -> Result<(usize, List), String> {
        let (answer, after) = self.make(chip, figures)?;
        self.test_list(chip, &[&after])
            .map_err(|says| self.fault(None, &says, &answer))?;
        let cuts = match self.call {
            Call::EraseAll => 0,
            _ => self.cuts(chip, &answer, &after)?,
        };
        figures.cuts += cuts as u64;
        Ok((cuts, after))
    }

    /// Makes the call with every limit that cuts it, and with the first that does not; fewer if Ctrl-C comes. Gives how many cut it.
    fn cuts(
        &self,
        chip: &Chip,
        answer: &Result<Answer, Error>,
        after: &List,
    ) -> Result<usize, String> {
        let mut last = self.before.image.clone();
        let mut limit = 0;
        while limit == 0 || !system::is_interrupted() {
            let (copy, limited) = self.limited(limit);
            let fault = |says: &str| self.fault(Some(limit), says, &limited);
            if !copy.is_one_store_from(&last) || limit == 0 && copy.image != last {
                return Err(fault("a limit of one more is not one store more"));
            }
            if limited != Err(Error::Cut) {
                if limited != *answer || copy.image != chip.image {
                    return Err(fault("a limit that is not reached makes a difference"));
                }
                break;
            }
            self.test_list(&copy, &[self.list, after])
                .map_err(|says| fault(&says))?;
            last = copy.image;
            limit += 1;
        }
        Ok(limit)
    }

    fn limited(&self, limit: usize) -> (Chip, Result<Answer, Error>) {
        let mut copy = self.before.copy();
        let limited = copy.make(self.call, Some(limit));
        (copy, limited)
    }

    /// The image that a cut leaves, and its list: the call is made once more, since the images of its cuts were not kept.
    pub fn cut(&self, limit: usize) -> Result<(Vec<u8>, List), String> {
        let (copy, limited) = self.limited(limit);
        match copy.list() {
            Ok(list) => Ok((copy.image, list)),
            Err(says) => Err(self.fault(Some(limit), &says, &limited)),
        }
    }

    /// The list after a whole call that answers so, if a plain list can answer so.
    fn expected(
        &self,
        answer: &Result<Answer, Error>,
        chip: &mut Chip,
        figures: &mut Figures,
    ) -> Result<List, &'static str> {
        let mut after = self.list.clone();
        match (self.call, answer) {
            (Call::Push(slip), answer) => {
                self.expect_push(slip, answer, chip, figures)?;
                after.extend(answer.is_ok().then(|| slip.clone()));
            }
            (Call::Peek | Call::Pop, Ok(Answer::Empty)) if after.is_empty() => (),
            (Call::Peek | Call::Pop, Ok(Answer::Empty)) => return Err("empty, and slips wait"),
            (Call::Peek | Call::Pop, Ok(Answer::Slip(slip))) if after.first() != Some(slip) => {
                return Err("another slip than the oldest is shown or popped");
            }
            (Call::Pop, Ok(Answer::Slip(_))) => {
                after.remove(0);
                figures.popped += 1;
            }
            (Call::EraseAll, Ok(_)) => after.clear(),
            (Call::Peek | Call::FindMaxFit | Call::SpaceLeft, Ok(_)) => (),
            // document 01: on a single page the fit is refused so, after the first slip
            (Call::FindMaxFit, Err(Error::Corrupted)) if chip.shape.pages() == 1 => (),
            _ => return Err("an answer that no plain list gives"),
        }
        Ok(after)
    }

    fn expect_push(
        &self,
        slip: &[u8],
        answer: &Result<Answer, Error>,
        chip: &mut Chip,
        figures: &mut Figures,
    ) -> Result<(), &'static str> {
        match answer {
            Err(Error::ItemTooBig) if slip.len() > chip.longest() => (),
            _ if slip.len() > chip.longest() => {
                return Err("a slip that is too big has to be refused as such");
            }
            Ok(_) => figures.pushed += 1,
            Err(Error::FullStorage) if chip.has_live() => figures.full += 1,
            Err(Error::FullStorage) => return Err("full, and no slip is live"),
            _ => return Err("an answer that no plain list gives"),
        }
        Ok(())
    }

    fn test_outside(&self, chip: &Chip) -> Result<(), &'static str> {
        match chip.outside() == self.before.outside() {
            true => Ok(()),
            false => Err("a byte outside the range has changed"),
        }
    }

    /// Tests that the chip's list is one of these, and that nothing outside the range has changed.
    fn test_list(&self, chip: &Chip, lists: &[&List]) -> Result<(), String> {
        self.test_outside(chip)?;
        let list = chip.list()?;
        if lists.contains(&&list) {
            return Ok(());
        }
        let mut says = String::from("the list is neither the one before nor the one after\n");
        for (name, list) in [("found", &list), ("before", self.list)] {
            let slips: Vec<String> = list.iter().map(|slip| format!("[{}]", hex(slip))).collect();
            // writing to a string does not fail
            let _ = writeln!(says, "  {name}: {}", slips.join(" "));
        }
        Err(says)
    }

    /// What was found, and the call as a line that `compare --replay` takes, if the whole image is held.
    fn fault(&self, limit: Option<usize>, says: &str, answer: &Result<Answer, Error>) -> String {
        let digits = |bytes: &[u8]| match bytes {
            [] => "-".into(),
            _ => hex(bytes),
        };
        let (name, slip, buffer) = match self.call {
            Call::Push(slip) => ("push", slip.as_slice(), 0),
            Call::Peek => ("peek", &[][..], self.before.shape.page),
            Call::Pop => ("pop", &[][..], self.before.shape.page),
            Call::FindMaxFit => ("find_max_fit", &[][..], 0),
            Call::SpaceLeft => ("space_left", &[][..], 0),
            Call::EraseAll => ("erase_all", &[][..], 0),
        };
        let Shape {
            start,
            end,
            page,
            word,
        } = self.before.shape;
        let limit = limit.map_or("-".into(), |limit| limit.to_string());
        let from = match self.before.base {
            0 => String::new(),
            base => format!("\n  the image is shown from {base} on"),
        };
        format!(
            "{says}\n  answer: {answer:?}{from}\n  call: {name} {start} {end} {page} {word} {limit} 0 {} {} {}",
            digits(&self.before.image),
            digits(slip),
            digits(&vec![0; buffer as usize])
        )
    }
}
