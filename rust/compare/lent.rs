//! What libdock.a is lent, and what it makes of a case.
use crate::face::{self, Answer};
use judge::{Call, Case, Shape};

/// What stands on either side of a lent slice while libdock.a works on it, and has to be there still.
const GUARD: [u8; 32] = [0xc3; 32];

/// Bytes between two guards.
pub struct Lent(Vec<u8>);

impl Lent {
    pub fn of(bytes: &[u8]) -> Lent {
        Lent([&GUARD[..], bytes, &GUARD].concat())
    }

    pub fn bytes(&self) -> &[u8] {
        &self.0[GUARD.len()..self.0.len() - GUARD.len()]
    }

    pub fn bytes_mut(&mut self) -> &mut [u8] {
        let end = self.0.len() - GUARD.len();
        &mut self.0[GUARD.len()..end]
    }

    fn is_guarded(&self) -> bool {
        self.0.starts_with(&GUARD) && self.0.ends_with(&GUARD)
    }
}

/// What libdock.a made of a case.
pub struct Made {
    pub answer: Answer,
    pub image: Lent,
    pub buffer: Lent,
    /// whether a byte changed that was not lent, or only lent to be read
    pub is_astray: bool,
}

pub fn asked(case: &Case) -> Made {
    let [mut image, mut buffer] = [&case.image, &case.buffer].map(|bytes| Lent::of(bytes));
    let (answer, is_astray) = ask(case, &mut image, &mut buffer);
    Made {
        answer,
        image,
        buffer,
        is_astray,
    }
}

/// The answer to a case's call, made on this image and with this buffer in place of the case's own; and whether it went astray.
pub fn ask(case: &Case, image: &mut Lent, buffer: &mut Lent) -> (Answer, bool) {
    let slip = Lent::of(&case.slip);
    let answer = {
        let (shape, limit) = (numbers(&case.shape), case.limit);
        let (image, slip, buffer) = (image.bytes_mut(), slip.bytes(), buffer.bytes_mut());
        match case.call {
            Call::Push => face::push(image, shape, slip, case.overwrite, limit),
            Call::Peek => face::peek(image, shape, buffer, limit),
            Call::Pop => face::pop(image, shape, buffer, limit),
            Call::FindMaxFit => face::find_max_fit(image, shape, limit),
            Call::SpaceLeft => face::space_left(image, shape, limit),
            Call::EraseAll => face::erase_all(image, shape, limit),
        }
    };
    let is_guarded = image.is_guarded() && slip.is_guarded() && buffer.is_guarded();
    let is_astray = !is_guarded || slip.bytes() != case.slip;
    (answer, is_astray)
}

pub fn numbers(shape: &Shape) -> [u32; 4] {
    [shape.start, shape.end, shape.page, shape.word]
}
