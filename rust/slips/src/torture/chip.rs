//! The chip of a history: an image, and the calls that are made on it.
use slipq::{Error, ItemState, Queue, Shape};
use std::cell::RefCell;
use std::rc::Rc;

pub type List = Vec<Vec<u8>>;

#[derive(Clone, Debug)]
pub enum Call {
    Push(Vec<u8>),
    Peek,
    Pop,
    FindMaxFit,
    SpaceLeft,
    /// always whole: a cut one ends the account
    EraseAll,
}

#[derive(Debug, PartialEq, Eq)]
pub enum Answer {
    Done,
    Slip(Vec<u8>),
    Empty,
    Number(Option<u32>),
}

/// Up to this start the whole image is held; of one with a later start, what comes more than a page before it is not.
const HELD_WHOLE: u32 = 8192;

/// One queue and its image.
pub struct Chip {
    /// the image from `base` on
    pub image: Vec<u8>,
    /// the address of the first byte that is held
    pub base: usize,
    pub shape: Shape,
    /// Where the calls are made if the base is not 0, since an image begins at address 0. It is shared by all copies. The system gives it
    /// no memory before it is touched, and no call touches what stands before the range.
    room: Rc<RefCell<Vec<u8>>>,
}

impl Chip {
    /// An erased range in an image of some length, whose other bytes are given by their number.
    pub fn new(shape: Shape, length: usize, bytes: impl FnOnce(usize) -> Vec<u8>) -> Chip {
        let base = match shape.start {
            0..=HELD_WHOLE => 0,
            start => (start - shape.page) as usize,
        };
        let room = if base == 0 { vec![] } else { vec![0; length] };
        let mut image = bytes(length - base);
        image[shape.start as usize - base..shape.end as usize - base].fill(0xff);
        Chip {
            image,
            base,
            shape,
            room: Rc::new(RefCell::new(room)),
        }
    }

    pub fn copy(&self) -> Chip {
        Chip {
            image: self.image.clone(),
            room: Rc::clone(&self.room),
            ..*self
        }
    }

    fn work<T>(&mut self, work: impl FnOnce(&mut Queue) -> T) -> T {
        let checked = "the shape was checked";
        if self.base == 0 {
            return work(&mut Queue::new(&mut self.image, self.shape).expect(checked));
        }
        let mut room = self.room.borrow_mut();
        room[self.base..].copy_from_slice(&self.image);
        let answer = work(&mut Queue::new(&mut room, self.shape).expect(checked));
        self.image.copy_from_slice(&room[self.base..]);
        answer
    }

    pub fn make(&mut self, call: &Call, limit: Option<usize>) -> Result<Answer, Error> {
        let mut buffer = self.buffer();
        self.work(|queue| make(queue, call, limit, &mut buffer))
    }

    /// A buffer that takes any slip.
    fn buffer(&self) -> Vec<u8> {
        vec![0; self.shape.page as usize]
    }

    /// The slips that wait: what pops show, made on a copy.
    pub fn list(&self) -> Result<List, String> {
        // each slip takes a header of eight bytes at least
        let most = self.image.len() / 8;
        let mut buffer = self.buffer();
        self.copy().work(|queue| {
            let mut list = vec![];
            for _ in 0..=most {
                match make(queue, &Call::Pop, None, &mut buffer) {
                    Ok(Answer::Slip(slip)) => list.push(slip),
                    Ok(_) => return Ok(list),
                    Err(error) => return Err(format!("the list cannot be popped: {error:?}")),
                }
            }
            Err("more slips can be popped than the image can hold".into())
        })
    }

    /// Whether one store leads from an image to this one: at most one word has changed, or one page that is FF now.
    pub fn is_one_store_from(&self, image: &[u8]) -> bool {
        let Some([first, last]) = changed(image, &self.image) else {
            return true;
        };
        let [start, end] = self.range();
        let [page, word] = [self.shape.page, self.shape.word].map(|number| number as usize);
        if first < start || last >= end {
            return false;
        }
        let is_within = |unit: usize| (first - start) / unit == (last - start) / unit;
        let page_at = start + (first - start) / page * page;
        let mut page_now = self.image[page_at..][..page].iter();
        is_within(word) || is_within(page) && page_now.all(|byte| *byte == 0xff)
    }

    /// Whether there is a slip that waits or is torn.
    pub fn has_live(&mut self) -> bool {
        let pages = self.shape.pages();
        self.work(|queue| {
            let is_live = |item: slipq::Item| item.state != ItemState::Popped;
            (0..pages).any(|page| queue.items(page).any(is_live))
        })
    }

    /// The longest slip that any push takes.
    pub fn longest(&self) -> usize {
        let Shape { page, word, .. } = self.shape;
        (page - 2 * word - 8_u32.next_multiple_of(word)) as usize
    }

    /// The range's place in what is held.
    fn range(&self) -> [usize; 2] {
        [self.shape.start, self.shape.end].map(|address| address as usize - self.base)
    }

    /// The bytes outside the range, as far as they are held.
    pub fn outside(&self) -> [&[u8]; 2] {
        let [start, end] = self.range();
        [&self.image[..start], &self.image[end..]]
    }
}

/// The places of the first and the last byte that differ. Rows are compared first: a large image has many, and few of them differ.
fn changed(old: &[u8], new: &[u8]) -> Option<[usize; 2]> {
    const ROW: usize = 256;
    let rows = || old.chunks(ROW).zip(new.chunks(ROW));
    let differs = |(old, new): (&[u8], &[u8])| old != new;
    let first_row = rows().position(differs)? * ROW;
    let last_row = rows().rposition(differs)? * ROW;
    let differs = |(old, new): (&u8, &u8)| old != new;
    let bytes = |from: usize| old[from..].iter().zip(&new[from..]);
    let first = bytes(first_row).position(differs)?;
    let last = bytes(last_row).take(ROW).rposition(differs)?;
    Some([first_row + first, last_row + last])
}

fn make(
    queue: &mut Queue,
    call: &Call,
    limit: Option<usize>,
    buffer: &mut [u8],
) -> Result<Answer, Error> {
    let done = |()| Answer::Done;
    let shown = |slip: Option<&mut [u8]>| match slip {
        None => Answer::Empty,
        Some(slip) => Answer::Slip(slip.to_vec()),
    };
    let number = |left| Answer::Number(Some(left));
    match (call, limit) {
        (Call::Push(slip), None) => queue.push(slip, false).map(done),
        (Call::Push(slip), Some(limit)) => queue.push_limited(slip, false, limit).map(done),
        (Call::Peek, None) => queue.peek(buffer).map(shown),
        (Call::Peek, Some(limit)) => queue.peek_limited(buffer, limit).map(shown),
        (Call::Pop, None) => queue.pop(buffer).map(shown),
        (Call::Pop, Some(limit)) => queue.pop_limited(buffer, limit).map(shown),
        (Call::FindMaxFit, None) => queue.find_max_fit().map(Answer::Number),
        (Call::FindMaxFit, Some(limit)) => queue.find_max_fit_limited(limit).map(Answer::Number),
        (Call::SpaceLeft, None) => queue.space_left().map(number),
        (Call::SpaceLeft, Some(limit)) => queue.space_left_limited(limit).map(number),
        (Call::EraseAll, _) => queue.erase_all().map(done),
    }
}
