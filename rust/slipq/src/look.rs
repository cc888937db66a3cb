//! Looking at pages without changing them.
use crate::{Queue, Shape, face, unknown};
use core::fmt::{Display, Formatter, Result as Formatted};

/// A page's state, by its two marks.
#[derive(Clone, Copy, Debug, PartialEq, Eq)]
pub enum PageState {
    /// Neither mark is set.
    Open,
    /// The first mark is set.
    PartialOpen,
    /// Both marks are set.
    Closed,
    /// The last mark alone is set: an erase was interrupted.
    Corrupted,
}

impl Display for PageState {
    fn fmt(&self, f: &mut Formatter) -> Formatted {
        f.pad(match self {
            PageState::Open => "open",
            PageState::PartialOpen => "partial",
            PageState::Closed => "closed",
            PageState::Corrupted => "corrupted",
        })
    }
}

/// What became of a slip on flash.
#[derive(Clone, Copy, Debug, PartialEq, Eq)]
pub enum ItemState {
    /// It waits to be popped.
    Waits,
    /// It was popped.
    Popped,
    /// It was cut short: its checksum is wrong.
    Torn,
}

impl Display for ItemState {
    fn fmt(&self, f: &mut Formatter) -> Formatted {
        f.pad(match self {
            ItemState::Waits => "waits",
            ItemState::Popped => "popped",
            ItemState::Torn => "torn",
        })
    }
}

/// A slip that the scan of a page accepts.
#[derive(Clone, Copy, Debug, PartialEq, Eq)]
pub struct Item {
    /// the address of its header
    pub address: u32,
    /// the address of its payload
    pub payload: u32,
    /// the payload's length
    pub length: u32,
    /// whether it waits, is popped or torn
    pub state: ItemState,
}

/// The slips on one page, in the order of their addresses; from [`Queue::items`].
#[derive(Clone, Debug)]
pub struct Items<'q> {
    image: &'q [u8],
    shape: Shape,
    page: u32,
    /// where the scan stands
    at: u32,
    /// where the page's data end; the scan's own end, once it has stopped
    end: u32,
}

impl Items<'_> {
    /// Where the scan stands. When all items were given, this is the page's free spot.
    pub fn address(&self) -> u32 {
        self.at
    }
}

impl Iterator for Items<'_> {
    type Item = Item;

    fn next(&mut self) -> Option<Item> {
        let word = self.shape.word;
        while self.at < self.end {
            let seen = face::item(self.image, self.shape.numbers(), self.page, self.at);
            if seen.row != 0 {
                unknown(seen.row);
            }
            let state = match seen.value & 7 {
                0 => {
                    self.end = self.at;
                    return None;
                }
                1 => {
                    self.at += word;
                    continue;
                }
                2 => ItemState::Waits,
                3 => ItemState::Popped,
                4 => ItemState::Torn,
                kind => panic!("libdock.a knows an item of kind {kind}, which slipq does not"),
            };
            let (address, length) = (self.at, seen.value >> 3);
            let payload = address + 8_u32.next_multiple_of(word);
            self.at = payload + length.next_multiple_of(word);
            return Some(Item {
                address,
                payload,
                length,
                state,
            });
        }
        None
    }
}

impl Queue<'_> {
    /// The state of a page, counted from 0.
    ///
    /// # Panics
    /// If the queue has no such page.
    pub fn page_state(&self, page: u32) -> PageState {
        self.test_page(page);
        let seen = face::page_state(self.image, self.shape.numbers(), page);
        match (seen.row, seen.value) {
            (0, 0) => PageState::Open,
            (0, 1) => PageState::PartialOpen,
            (0, 2) => PageState::Closed,
            (0, 3) => PageState::Corrupted,
            (row, _) => unknown(row),
        }
    }

    /// The slips that the scan of a page accepts, whatever the page's state.
    ///
    /// ```
    /// use slipq::{ItemState, Queue, Shape};
    ///
    /// let mut image = [0xff; 128];
    /// let mut queue = Queue::new(&mut image, Shape::of(2, 64, 4))?;
    /// queue.push(b"Anton", false)?;
    /// queue.push(b"Berta", false)?;
    /// queue.pop(&mut [0; 64])?;
    /// let states: Vec<ItemState> = queue.items(0).map(|item| item.state).collect();
    /// assert_eq!(states, [ItemState::Popped, ItemState::Waits]);
    /// # Ok::<(), Box<dyn std::error::Error>>(())
    /// ```
    ///
    /// # Panics
    /// If the queue has no such page.
    pub fn items(&self, page: u32) -> Items<'_> {
        self.test_page(page);
        let shape = self.shape;
        let first = shape.start + page * shape.page;
        Items {
            image: self.image,
            shape,
            page,
            at: first + shape.word,
            end: first + shape.page - shape.word,
        }
    }

    fn test_page(&self, page: u32) {
        let pages = self.shape.pages();
        assert!(page < pages, "page {page} of a queue of {pages} pages");
    }
}
