//! The queue that the self test makes its calls on.
use super::shape;
use judge::{Call, Case, Outcome, Shape, Store, judge};

/// A queue from address 0 on. Each call is judged, and leaves the image as the crate does.
#[derive(Clone)]
pub struct Queue {
    pub shape: Shape,
    pub image: Vec<u8>,
}

impl Queue {
    pub fn erased(word: u32, page: u32, pages: u32) -> Queue {
        Queue {
            shape: shape(0, pages * page, page, word),
            image: vec![0xff; (pages * page) as usize],
        }
    }

    /// The queue after a push.
    pub fn with(mut self, slip: &[u8]) -> Queue {
        self.push(slip);
        self
    }

    pub fn case(&self, call: Call) -> Case {
        Case {
            call,
            shape: self.shape,
            limit: None,
            overwrite: false,
            image: self.image.clone(),
            slip: vec![],
            buffer: vec![],
        }
    }

    pub fn made(&mut self, case: Case) -> Outcome {
        let outcome = judge(&case);
        self.image = outcome.image.clone();
        outcome
    }

    pub fn push(&mut self, slip: &[u8]) -> Outcome {
        self.made(Case {
            slip: slip.to_vec(),
            ..self.case(Call::Push)
        })
    }

    pub fn cut_push(&mut self, slip: &[u8], limit: usize) -> Outcome {
        self.made(Case {
            slip: slip.to_vec(),
            limit: Some(limit),
            ..self.case(Call::Push)
        })
    }

    pub fn peek(&mut self, buffer: usize) -> Outcome {
        self.made(Case {
            buffer: vec![7; buffer],
            ..self.case(Call::Peek)
        })
    }

    pub fn pop(&mut self, buffer: usize) -> Outcome {
        self.made(Case {
            buffer: vec![7; buffer],
            ..self.case(Call::Pop)
        })
    }

    pub fn call(&mut self, call: Call) -> Vec<u32> {
        self.made(self.case(call)).numbers
    }

    /// The list: what pops show until none is left.
    pub fn list(&self) -> Vec<Vec<u8>> {
        let mut queue = self.clone();
        let mut slips = vec![];
        while let outcome = queue.pop(self.shape.page as usize)
            && let [0, length] = outcome.numbers[..]
        {
            slips.push(outcome.buffer[..length as usize].to_vec());
        }
        slips
    }

    /// The free spot of a single page that has its start mark: where a push of the empty slip begins its header.
    pub fn free_spot(&self) -> Option<Store> {
        self.clone().push(&[]).stores.first().copied()
    }

    pub fn mark_start(&mut self, page: u32) {
        let at = (page * self.shape.page) as usize;
        self.image[at..at + self.shape.word as usize].fill(0);
    }

    pub fn mark_end(&mut self, page: u32) {
        let at = ((page + 1) * self.shape.page - self.shape.word) as usize;
        self.image[at..at + self.shape.word as usize].fill(0);
    }
}
