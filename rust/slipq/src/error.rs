//! The refusals, by document 01's rows.
use crate::Shape;
use core::fmt::{Display, Formatter, Result as Formatted};

/// What a call on a [`Queue`](crate::Queue) refuses.
#[derive(Clone, Copy, Debug, PartialEq, Eq)]
#[non_exhaustive]
pub enum Error {
    /// The slip is longer than 65,535 bytes, or than a page less two words and a header. The image is unchanged.
    ItemTooBig,
    /// There is no room for the slip. Repairs and the current page's start mark may be new, nothing else.
    FullStorage,
    /// The first slip that does not fit the buffer was met; this is its length rounded up to a word.
    BufferTooSmall(usize),
    /// A step failed on the pages' marks, and again after one repair. Repairs and earlier stores stay.
    Corrupted,
    /// The store limit is used up; the first stores up to it were made.
    Cut,
}

impl Error {
    /// The row in document 01's table of refusals.
    pub fn row(self) -> u32 {
        match self {
            Error::ItemTooBig => 2,
            Error::FullStorage => 3,
            Error::BufferTooSmall(_) => 4,
            Error::Corrupted => 5,
            Error::Cut => 7,
        }
    }
}

impl Display for Error {
    fn fmt(&self, f: &mut Formatter) -> Formatted {
        match self {
            Error::ItemTooBig => f.write_str(
                "the slip is longer than 65535 bytes, or than a page less two words and a header",
            ),
            Error::FullStorage => f.write_str(
                "no room: the next page, or the sole page, has a live slip, and overwriting is off",
            ),
            Error::BufferTooSmall(needed) => {
                write!(f, "the buffer is too small: this slip takes {needed} bytes")
            }
            Error::Corrupted => f.write_str("a step failed, and again after one repair"),
            Error::Cut => f.write_str("the store limit is used up"),
        }
    }
}

impl core::error::Error for Error {}

/// Why a [`Shape`] is refused. Of several reasons the first in this order is given.
#[derive(Clone, Copy, Debug, PartialEq, Eq)]
#[non_exhaustive]
pub enum ShapeError {
    /// Page or word is 0, or the page is not a multiple of the word.
    BadGeometry,
    /// The start is not a multiple of the page.
    StartRangeNotAtPageBoundary,
    /// The end is not a multiple of the page.
    EndRangeNotAtPageBoundary,
    /// The range is smaller than a page, or ends before it starts.
    RangeTooSmall,
    /// The page is smaller than three words and a header.
    PagesTooSmall,
    /// The word is larger than 32.
    WordSizeTooLarge,
    /// The word is not 4, 8, 16 or 32.
    BadWord,
    /// The page is larger than [`Shape::LARGEST_PAGE`], or there are more pages than [`Shape::MOST_PAGES`].
    TooLarge,
    /// The range ends beyond the image.
    OutsideImage,
}

impl ShapeError {
    pub(crate) fn of_row(row: u32) -> Option<ShapeError> {
        Some(match row {
            9 => ShapeError::BadGeometry,
            10 => ShapeError::StartRangeNotAtPageBoundary,
            11 => ShapeError::EndRangeNotAtPageBoundary,
            12 => ShapeError::RangeTooSmall,
            13 => ShapeError::PagesTooSmall,
            14 => ShapeError::WordSizeTooLarge,
            15 => ShapeError::BadWord,
            16 => ShapeError::TooLarge,
            17 => ShapeError::OutsideImage,
            _ => return None,
        })
    }

    /// The row in document 01's table of refusals.
    pub fn row(self) -> u32 {
        match self {
            ShapeError::BadGeometry => 9,
            ShapeError::StartRangeNotAtPageBoundary => 10,
            ShapeError::EndRangeNotAtPageBoundary => 11,
            ShapeError::RangeTooSmall => 12,
            ShapeError::PagesTooSmall => 13,
            ShapeError::WordSizeTooLarge => 14,
            ShapeError::BadWord => 15,
            ShapeError::TooLarge => 16,
            ShapeError::OutsideImage => 17,
        }
    }
}

impl Display for ShapeError {
    fn fmt(&self, f: &mut Formatter) -> Formatted {
        f.write_str(match self {
            ShapeError::BadGeometry => {
                "page or word is 0, or the page is not a multiple of the word"
            }
            ShapeError::StartRangeNotAtPageBoundary => "the start is not a multiple of the page",
            ShapeError::EndRangeNotAtPageBoundary => "the end is not a multiple of the page",
            ShapeError::RangeTooSmall => {
                "the range is smaller than a page, or ends before it starts"
            }
            ShapeError::PagesTooSmall => "the page is smaller than three words and a header",
            ShapeError::WordSizeTooLarge => "the word is larger than 32",
            ShapeError::BadWord => "the word is not 4, 8, 16 or 32",
            ShapeError::TooLarge => {
                let (page, pages) = (Shape::LARGEST_PAGE, Shape::MOST_PAGES);
                return write!(
                    f,
                    "the page is larger than {page}, or there are more than {pages} pages"
                );
            }
            ShapeError::OutsideImage => "the range ends beyond the image",
        })
    }
}

impl core::error::Error for ShapeError {}
