//! A queue of slips on NOR flash, over a lent image: first in, first out, and whole after any power cut.
//!
//! The calls are those of the crate sequential-storage 8.0.2, queue without a cache, and the layout on flash is the same. The work is
//! done by a static library that is written in Rattle and proved; this crate wraps it, and is the only one that calls it.
//!
//! ```
//! use slipq::{Error, Queue, Shape};
//!
//! let shape = Shape::of(4, 256, 4); // four pages of 256 bytes, words of 4, from address 0 on
//! let mut image = vec![0xff; 1024]; // an erased chip
//! let mut queue = Queue::new(&mut image, shape)?;
//! queue.push(b"Hofer, Anna", false)?;
//! queue.push(b"Hofer, Paul", false)?;
//!
//! let mut buffer = [0; 256];
//! assert_eq!(queue.peek(&mut buffer)?.as_deref(), Some(&b"Hofer, Anna"[..]));
//! assert_eq!(queue.pop(&mut buffer)?.as_deref(), Some(&b"Hofer, Anna"[..]));
//!
//! // the power fails after two stores: the slip is not there, and the others are whole
//! assert_eq!(queue.push_limited(b"Hofer, Marie", false, 2), Err(Error::Cut));
//! assert_eq!(queue.pop(&mut buffer)?.as_deref(), Some(&b"Hofer, Paul"[..]));
//! assert_eq!(queue.pop(&mut buffer)?, None);
//! # Ok::<(), Box<dyn std::error::Error>>(())
//! ```
//!
//! # Stores and limits
//!
//! A store is one word that is ANDed into the image, or one page that is set to FF. Each call has a second form with a limit: it makes
//! the first `limit` stores of the call, and answers [`Error::Cut`] exactly when there are more. That is what a power cut leaves.
#![no_std]
#![warn(missing_docs, clippy::missing_errors_doc)]

mod error;
mod face;
mod look;

pub use error::{Error, ShapeError};
pub use look::{Item, ItemState, Items, PageState};

use face::Answer;

/// The readme's examples are tests too.
#[cfg(doctest)]
#[doc = include_str!("../README.md")]
struct ReadMe;

/// The range of the image that the queue lives in, its page size and its word size, all in bytes.
#[derive(Clone, Copy, Debug, PartialEq, Eq)]
pub struct Shape {
    /// the range's first address
    pub start: u32,
    /// the address behind the range's last
    pub end: u32,
    /// the bytes of a page: what is erased at once
    pub page: u32,
    /// the bytes of a word: what is written at once
    pub word: u32,
}

impl Shape {
    /// The most bytes that a page has.
    pub const LARGEST_PAGE: u32 = 65_536;

    /// The most pages that a range has.
    pub const MOST_PAGES: u32 = 256;

    /// A range of so many pages from address 0 on. An end past 32 bits becomes the largest number, which the check refuses.
    ///
    /// ```
    /// use slipq::Shape;
    ///
    /// const SHAPE: Shape = Shape::of(4, 256, 4);
    /// assert_eq!(SHAPE, Shape { start: 0, end: 1024, page: 256, word: 4 });
    /// ```
    pub const fn of(pages: u32, page: u32, word: u32) -> Shape {
        Shape {
            start: 0,
            end: pages.saturating_mul(page),
            page,
            word,
        }
    }

    /// Whether an image of so many bytes can hold a queue of this shape.
    ///
    /// ```
    /// use slipq::{Shape, ShapeError};
    ///
    /// assert_eq!(Shape::of(1, 20, 4).check(20), Ok(()));
    /// assert_eq!(Shape::of(1, 16, 4).check(16), Err(ShapeError::PagesTooSmall));
    /// assert_eq!(Shape::of(1, 20, 4).check(19), Err(ShapeError::OutsideImage));
    /// ```
    ///
    /// # Errors
    /// The first reason, in the order of [`ShapeError`], for which it cannot.
    pub fn check(self, image_len: usize) -> Result<(), ShapeError> {
        match face::check(image_len, self.numbers()).row {
            0 => Ok(()),
            row => Err(ShapeError::of_row(row).unwrap_or_else(|| unknown(row))),
        }
    }

    /// How many pages the range has; 0 where the page is 0 or the range ends before it starts.
    pub fn pages(self) -> u32 {
        let length = self.end.saturating_sub(self.start);
        length.checked_div(self.page).unwrap_or(0)
    }

    fn numbers(self) -> [u32; 4] {
        [self.start, self.end, self.page, self.word]
    }
}

/// A queue in a lent image.
///
/// Bytes of the image outside the shape's range never change and have no say.
#[derive(Debug)]
pub struct Queue<'a> {
    image: &'a mut [u8],
    shape: Shape,
}

impl<'a> Queue<'a> {
    /// A queue over an image, if the shape passes its check. Nothing is read or changed: an image of a chip is taken as it stands, and a
    /// new queue needs a range that is erased, all FF.
    ///
    /// ```
    /// use slipq::{Queue, Shape, ShapeError};
    ///
    /// let mut image = [0xff; 64];
    /// let shape = Shape { start: 32, end: 64, page: 32, word: 4 };
    /// assert!(Queue::new(&mut image, shape).is_ok());
    /// assert_eq!(Queue::new(&mut image, Shape { word: 5, ..shape }).err(), Some(ShapeError::BadGeometry));
    /// ```
    ///
    /// # Errors
    /// As [`Shape::check`] refuses the shape for this image.
    pub fn new(image: &'a mut [u8], shape: Shape) -> Result<Queue<'a>, ShapeError> {
        shape.check(image.len())?;
        Ok(Queue { image, shape })
    }

    /// The queue's shape.
    pub fn shape(&self) -> Shape {
        self.shape
    }

    /// The whole image, with what lies outside the range.
    pub fn image(&self) -> &[u8] {
        self.image
    }

    /// Gives the lent image back, for as long as it was lent.
    ///
    /// ```
    /// use slipq::{Queue, Shape};
    ///
    /// fn with_a_slip(image: &mut [u8]) -> Result<&mut [u8], Box<dyn std::error::Error>> {
    ///     let mut queue = Queue::new(image, Shape::of(1, 32, 4))?;
    ///     queue.push(b"Anton", false)?;
    ///     Ok(queue.into_image())
    /// }
    /// assert_eq!(with_a_slip(&mut [0xff; 32])?[12..17], *b"Anton");
    /// # Ok::<(), Box<dyn std::error::Error>>(())
    /// ```
    pub fn into_image(self) -> &'a mut [u8] {
        self.image
    }

    /// Adds a slip behind the last one. With `overwrite` a full queue makes room by erasing its oldest page.
    ///
    /// ```
    /// use slipq::{Error, Queue, Shape};
    ///
    /// let mut image = [0xff; 32];
    /// let mut queue = Queue::new(&mut image, Shape::of(1, 32, 4))?;
    /// assert_eq!(queue.push(&[0; 17], false), Err(Error::ItemTooBig));
    /// assert_eq!(queue.push(&[0; 16], false), Ok(()));
    /// assert_eq!(queue.push(b"", false), Err(Error::FullStorage));
    /// assert_eq!(queue.push(b"", true), Ok(()));
    /// # Ok::<(), slipq::ShapeError>(())
    /// ```
    ///
    /// # Errors
    /// [`Error::ItemTooBig`]; [`Error::FullStorage`], never with `overwrite`; [`Error::Corrupted`].
    pub fn push(&mut self, slip: &[u8], overwrite: bool) -> Result<(), Error> {
        self.push_within(slip, overwrite, None)
    }

    /// [`push`](Queue::push) with a store limit.
    ///
    /// # Errors
    /// Those of [`push`](Queue::push), and [`Error::Cut`] where the call has more stores than `limit`.
    pub fn push_limited(
        &mut self,
        slip: &[u8],
        overwrite: bool,
        limit: usize,
    ) -> Result<(), Error> {
        self.push_within(slip, overwrite, Some(limit))
    }

    fn push_within(
        &mut self,
        slip: &[u8],
        overwrite: bool,
        limit: Option<usize>,
    ) -> Result<(), Error> {
        made(face::push(
            self.image,
            self.shape.numbers(),
            slip,
            overwrite,
            limit,
        ))
        .map(|_| ())
    }

    /// Shows the oldest slip, in the buffer's front, or `None` when no slip waits. The slip stays; the image may change all the same, by
    /// repairs and by erasing pages that have no slip left.
    ///
    /// The buffer has to take the slip's length rounded up to a word; a buffer as long as a page always does. Payloads that were read on
    /// the way, torn ones too, were copied to its front.
    ///
    /// ```
    /// use slipq::{Error, Queue, Shape};
    ///
    /// let mut image = [0xff; 32];
    /// let mut queue = Queue::new(&mut image, Shape::of(1, 32, 4))?;
    /// queue.push(b"Anton", false)?;
    /// assert_eq!(queue.peek(&mut [0; 7]), Err(Error::BufferTooSmall(8)));
    /// assert_eq!(queue.peek(&mut [0; 8])?.as_deref(), Some(&b"Anton"[..]));
    /// # Ok::<(), Box<dyn std::error::Error>>(())
    /// ```
    ///
    /// # Errors
    /// [`Error::BufferTooSmall`], with the size needed; [`Error::Corrupted`].
    pub fn peek<'b>(&mut self, buffer: &'b mut [u8]) -> Result<Option<&'b mut [u8]>, Error> {
        let answer = face::peek(self.image, self.shape.numbers(), buffer, None);
        shown(answer, buffer)
    }

    /// [`peek`](Queue::peek) with a store limit.
    ///
    /// # Errors
    /// Those of [`peek`](Queue::peek), and [`Error::Cut`] where the call has more stores than `limit`.
    pub fn peek_limited<'b>(
        &mut self,
        buffer: &'b mut [u8],
        limit: usize,
    ) -> Result<Option<&'b mut [u8]>, Error> {
        let answer = face::peek(self.image, self.shape.numbers(), buffer, Some(limit));
        shown(answer, buffer)
    }

    /// Shows the oldest slip as [`peek`](Queue::peek) does, and takes it from the queue. A refused pop takes nothing.
    ///
    /// # Errors
    /// Those of [`peek`](Queue::peek).
    pub fn pop<'b>(&mut self, buffer: &'b mut [u8]) -> Result<Option<&'b mut [u8]>, Error> {
        let answer = face::pop(self.image, self.shape.numbers(), buffer, None);
        shown(answer, buffer)
    }

    /// [`pop`](Queue::pop) with a store limit.
    ///
    /// # Errors
    /// Those of [`pop`](Queue::pop), and [`Error::Cut`] where the call has more stores than `limit`.
    pub fn pop_limited<'b>(
        &mut self,
        buffer: &'b mut [u8],
        limit: usize,
    ) -> Result<Option<&'b mut [u8]>, Error> {
        let answer = face::pop(self.image, self.shape.numbers(), buffer, Some(limit));
        shown(answer, buffer)
    }

    /// The bytes that the current page's rest, or a fresh page, has for the next slip; `None` when nothing fits. It is the crate's number:
    /// a fresh page counts with its header. Repairs may change the image.
    ///
    /// # Errors
    /// [`Error::Corrupted`].
    pub fn find_max_fit(&mut self) -> Result<Option<u32>, Error> {
        fit(face::find_max_fit(self.image, self.shape.numbers(), None))
    }

    /// [`find_max_fit`](Queue::find_max_fit) with a store limit.
    ///
    /// # Errors
    /// Those of [`find_max_fit`](Queue::find_max_fit), and [`Error::Cut`] where the call has more stores than `limit`.
    pub fn find_max_fit_limited(&mut self, limit: usize) -> Result<Option<u32>, Error> {
        fit(face::find_max_fit(
            self.image,
            self.shape.numbers(),
            Some(limit),
        ))
    }

    /// The bytes left over all pages, with the headers of slips to come. Repairs may change the image.
    ///
    /// ```
    /// use slipq::{Queue, Shape};
    ///
    /// let mut image = [0xff; 32];
    /// let mut queue = Queue::new(&mut image, Shape::of(1, 32, 4))?;
    /// assert_eq!(queue.space_left(), Ok(24));
    /// queue.push(b"", false)?;
    /// assert_eq!(queue.space_left(), Ok(16));
    /// # Ok::<(), Box<dyn std::error::Error>>(())
    /// ```
    ///
    /// # Errors
    /// [`Error::Corrupted`].
    pub fn space_left(&mut self) -> Result<u32, Error> {
        made(face::space_left(self.image, self.shape.numbers(), None))
    }

    /// [`space_left`](Queue::space_left) with a store limit.
    ///
    /// # Errors
    /// Those of [`space_left`](Queue::space_left), and [`Error::Cut`] where the call has more stores than `limit`.
    pub fn space_left_limited(&mut self, limit: usize) -> Result<u32, Error> {
        made(face::space_left(
            self.image,
            self.shape.numbers(),
            Some(limit),
        ))
    }

    /// Sets every page of the range to FF, in page order; no slip waits then.
    ///
    /// # Errors
    /// None comes: an image in memory takes every store, and the shape was checked.
    pub fn erase_all(&mut self) -> Result<(), Error> {
        made(face::erase_all(self.image, self.shape.numbers(), None)).map(|_| ())
    }

    /// [`erase_all`](Queue::erase_all) with a store limit.
    ///
    /// # Errors
    /// [`Error::Cut`] where the call has more stores than `limit`.
    pub fn erase_all_limited(&mut self, limit: usize) -> Result<(), Error> {
        made(face::erase_all(
            self.image,
            self.shape.numbers(),
            Some(limit),
        ))
        .map(|_| ())
    }
}

/// The value of what was done, or the refusal. Rows 9 to 17 do not come: the shape was checked.
fn made(answer: Answer) -> Result<u32, Error> {
    Err(match answer.row {
        0 => return Ok(answer.value),
        2 => Error::ItemTooBig,
        3 => Error::FullStorage,
        4 => Error::BufferTooSmall(answer.value as usize),
        5 => Error::Corrupted,
        7 => Error::Cut,
        row => unknown(row),
    })
}

fn shown(answer: Answer, buffer: &mut [u8]) -> Result<Option<&mut [u8]>, Error> {
    match answer.row {
        1 => Ok(None),
        _ => made(answer).map(|length| Some(&mut buffer[..length as usize])),
    }
}

fn fit(answer: Answer) -> Result<Option<u32>, Error> {
    made(answer).map(|length| Some(length).filter(|length| *length != face::NO_FIT))
}

fn unknown(row: u32) -> ! {
    panic!("libdock.a answers row {row}, which this version of slipq does not know")
}
