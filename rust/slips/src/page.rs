//! The pages as they read, each for itself.
use crate::show::{counted, note, numbered};
use slipq::{Item, ItemState, PageState, Queue, Shape};

/// One page as it reads.
pub struct Page {
    pub number: u32,
    pub address: u32,
    pub state: PageState,
    pub items: Vec<Item>,
    /// the address of the free spot
    pub free: u32,
    /// the bytes, in whole words, that are neither FF nor part of an item or of a mark that is 00 throughout
    pub unreadable: usize,
    /// a mark that is neither 00 nor FF throughout: no store of the queue leaves one
    pub has_odd_mark: bool,
    /// all of it is FF
    pub is_erased: bool,
}

impl Page {
    pub fn of(queue: &Queue, number: u32) -> Page {
        let shape = queue.shape();
        let mut items = queue.items(number);
        let all: Vec<Item> = items.by_ref().collect();
        let address = shape.start + number * shape.page;
        let bytes = &queue.image()[address as usize..][..shape.page as usize];
        let (word, page) = (shape.word as usize, shape.page as usize);
        let marks = [&bytes[..word], &bytes[page - word..]];
        let odd_marks = marks.iter().filter(|mark| !is_uniform(mark)).count();
        let free = items.address();
        let is_erased = is_erased(bytes);
        let lost = match is_erased {
            true => 0,
            false => unreadable_words(bytes, address, &all, word),
        };
        Page {
            number,
            address,
            state: queue.page_state(number),
            items: all,
            free,
            unreadable: (lost + odd_marks) * word,
            has_odd_mark: odd_marks > 0,
            is_erased,
        }
    }

    pub fn count(&self, state: ItemState) -> usize {
        let has_state = |item: &&Item| item.state == state;
        self.items.iter().filter(has_state).count()
    }

    /// The bytes behind the free spot.
    pub fn left(&self, shape: Shape) -> u32 {
        self.address + shape.page - shape.word - self.free
    }
}

/// Whether a mark is 00 or FF throughout.
pub fn is_uniform(mark: &[u8]) -> bool {
    mark.iter().all(|byte| *byte == 0) || is_erased(mark)
}

pub fn is_erased(bytes: &[u8]) -> bool {
    // a row at a time: an image may have 16 MiB
    const ROW: [u8; 256] = [0xff; 256];
    bytes.chunks(ROW.len()).all(|row| *row == ROW[..row.len()])
}

/// How many words between the marks are not FF and belong to no item.
fn unreadable_words(page: &[u8], address: u32, items: &[Item], word: usize) -> usize {
    let words = page.len() / word;
    let mut is_read = vec![false; words];
    is_read[0] = true;
    is_read[words - 1] = true;
    for item in items {
        let first = (item.address - address) as usize / word;
        let behind = (item.payload - address + item.length) as usize;
        is_read[first..behind.div_ceil(word)].fill(true);
    }
    let is_lost = |index: &usize| !is_read[*index] && !is_erased(&page[index * word..][..word]);
    (0..words).filter(is_lost).count()
}

/// All pages as they read.
pub fn pages(image: &mut [u8], shape: Shape) -> Vec<Page> {
    let queue = Queue::new(image, shape).expect("the shape was checked");
    (0..shape.pages())
        .map(|page| Page::of(&queue, page))
        .collect()
}

/// The line about bytes that are neither FF nor readable, if there are any.
pub fn unreadable(pages: &[Page]) -> Option<String> {
    let with: Vec<u32> = pages
        .iter()
        .filter(|page| page.unreadable > 0)
        .map(|page| page.number)
        .collect();
    let bytes: usize = pages.iter().map(|page| page.unreadable).sum();
    (bytes > 0).then(|| {
        format!(
            "{} on {} are neither FF nor readable: cut headers, damage, or another shape (`slips guess` tries shapes)",
            counted(bytes, "byte", "bytes"),
            numbered(&with)
        )
    })
}

/// Says on the standard error where bytes are neither FF nor readable.
pub fn note_unreadable(pages: &[Page]) {
    if let Some(line) = unreadable(pages) {
        note(&line);
    }
}
