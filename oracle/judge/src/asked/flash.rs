//! A flash over a lent image: it ANDs on write, sets a page to FF on erase, counts its stores and can stop after some of them.
use core::ops::Range;
use embedded_storage_async::nor_flash::{
    ErrorType, MultiwriteNorFlash, NorFlash, NorFlashError, NorFlashErrorKind, ReadNorFlash,
};

/// A store that was made.
#[derive(Clone, Copy, Debug, PartialEq, Eq)]
pub enum Store {
    /// one word, by its address
    Word(u32),
    /// the erase of one page, by its number
    Page(u32),
}

/// Why the flash gave an error.
#[derive(Clone, Copy, Debug, PartialEq, Eq)]
pub enum Fault {
    /// the store limit was used up
    Cut,
    /// the place lies in the range, but beyond the image
    OutsideImage,
}

impl NorFlashError for Fault {
    fn kind(&self) -> NorFlashErrorKind {
        match self {
            Fault::Cut => NorFlashErrorKind::Other,
            Fault::OutsideImage => NorFlashErrorKind::OutOfBounds,
        }
    }
}

/// More reads than any call makes that ends. 256 pages of 16,384 words are 2^22 words. A scan reads a word twice at most, a call scans
/// a page twice at most, and does all of it once more after a repair: 2^25 reads, and those of the marks.
const MOST_READS: u32 = 1 << 26;

/// The flash without its type: one body of code serves all pairs of word and page.
pub struct Chip {
    pub image: Vec<u8>,
    /// the address at which the image begins
    pub base: u32,
    /// the addresses that may be touched
    pub allowed: Range<u32>,
    /// the range's start, from which pages are counted
    pub start: u32,
    pub word: u32,
    pub page: u32,
    pub limit: Option<usize>,
    pub stores: Vec<Store>,
    pub reads: u32,
}

impl Chip {
    /// The place in the image of `length` bytes at an address. What no caller may ask ends in a panic that says so.
    fn place(
        &self,
        what: &str,
        unit: u32,
        from: u32,
        length: usize,
    ) -> Result<Range<usize>, Fault> {
        let end = u64::from(from) + length as u64;
        if from < self.allowed.start || end > u64::from(self.allowed.end) {
            panic!("{what} outside the range");
        }
        if unit == 0 || !from.is_multiple_of(unit) || !(length as u64).is_multiple_of(unit.into()) {
            panic!("{what} off its unit");
        }
        let at = (from - self.base) as usize;
        if at + length > self.image.len() {
            return Err(Fault::OutsideImage);
        }
        Ok(at..at + length)
    }

    /// Enters one store in the record, unless the limit is used up.
    fn count(&mut self, store: Store) -> Result<(), Fault> {
        if self.limit == Some(self.stores.len()) {
            return Err(Fault::Cut);
        }
        self.stores.push(store);
        Ok(())
    }

    fn read(&mut self, address: u32, bytes: &mut [u8]) -> Result<(), Fault> {
        self.reads += 1;
        if self.reads > MOST_READS {
            panic!("reads without end");
        }
        let place = self.place("read", self.word, address, bytes.len())?;
        bytes.copy_from_slice(&self.image[place]);
        Ok(())
    }

    /// Word by word, from the lowest up.
    fn write(&mut self, address: u32, bytes: &[u8]) -> Result<(), Fault> {
        let mut at = self.place("write", self.word, address, bytes.len())?.start;
        let mut address = address;
        for word in bytes.chunks(self.word as usize) {
            self.count(Store::Word(address))?;
            for byte in word {
                self.image[at] &= byte;
                at += 1;
            }
            address += self.word;
        }
        Ok(())
    }

    /// Page by page, in page order.
    fn erase(&mut self, from: u32, to: u32) -> Result<(), Fault> {
        if to < from {
            panic!("erase from {from} to {to}");
        }
        let place = self.place("erase", self.page, from, (to - from) as usize)?;
        let first = (from - self.start) / self.page;
        for (page, bytes) in (first..).zip(place.step_by(self.page as usize)) {
            self.count(Store::Page(page))?;
            self.image[bytes..bytes + self.page as usize].fill(0xff);
        }
        Ok(())
    }
}

/// The flash that the crate is given: its word and page are constants of the type.
pub struct Flash<'a, const WORD: usize, const PAGE: usize>(pub &'a mut Chip);

impl<const WORD: usize, const PAGE: usize> ErrorType for Flash<'_, WORD, PAGE> {
    type Error = Fault;
}

impl<const WORD: usize, const PAGE: usize> ReadNorFlash for Flash<'_, WORD, PAGE> {
    const READ_SIZE: usize = WORD;

    async fn read(&mut self, offset: u32, bytes: &mut [u8]) -> Result<(), Fault> {
        self.0.read(offset, bytes)
    }

    fn capacity(&self) -> usize {
        self.0.image.len()
    }
}

impl<const WORD: usize, const PAGE: usize> NorFlash for Flash<'_, WORD, PAGE> {
    const WRITE_SIZE: usize = WORD;
    const ERASE_SIZE: usize = PAGE;

    async fn erase(&mut self, from: u32, to: u32) -> Result<(), Fault> {
        self.0.erase(from, to)
    }

    async fn write(&mut self, offset: u32, bytes: &[u8]) -> Result<(), Fault> {
        self.0.write(offset, bytes)
    }
}

impl<const WORD: usize, const PAGE: usize> MultiwriteNorFlash for Flash<'_, WORD, PAGE> {}
