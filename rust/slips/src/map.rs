//! A picture of the pages, in 80 columns.
use crate::file::Stored;
use crate::page::{Page, is_erased};
use crate::progress::cut;
use crate::show::{counted, shown};
use crate::survey::Survey;
use slipq::{Item, ItemState, PageState};
use std::fmt::Write;

/// The most characters that a page's data take.
const WIDTH: usize = 64;
const COLUMNS: usize = 80;

const LEGEND: &str = "\
W w  a slip that waits: header, payload     |  a mark that is set
N n  whole, but not on the list             :  a mark that is not set
P p  popped                                 .  free
T t  torn                                   !  behind the free spot, not erased
?    no header";

/// What stands in a word of a page's data; of the words that share a character the largest is shown.
#[derive(Clone, Copy, PartialEq, Eq, PartialOrd, Ord)]
enum Cell {
    Free,
    Dirty,
    NoHeader,
    Payload(Kind),
    Header(Kind),
}

#[derive(Clone, Copy, PartialEq, Eq, PartialOrd, Ord)]
enum Kind {
    Popped,
    Torn,
    NotListed,
    Waits,
}

impl Cell {
    fn letter(self) -> char {
        match self {
            Cell::Free => '.',
            Cell::Dirty => '!',
            Cell::NoHeader => '?',
            Cell::Payload(kind) => kind.letter().to_ascii_lowercase(),
            Cell::Header(kind) => kind.letter(),
        }
    }

    fn colour(self) -> &'static str {
        match self {
            Cell::Free => "",
            Cell::Dirty | Cell::NoHeader => "\x1b[33m",
            Cell::Payload(kind) | Cell::Header(kind) => kind.colour(),
        }
    }
}

impl Kind {
    fn letter(self) -> char {
        match self {
            Kind::Popped => 'P',
            Kind::Torn => 'T',
            Kind::NotListed => 'N',
            Kind::Waits => 'W',
        }
    }

    fn colour(self) -> &'static str {
        match self {
            Kind::Popped => "\x1b[90m",
            Kind::Torn => "\x1b[31m",
            Kind::NotListed => "\x1b[35m",
            Kind::Waits => "\x1b[32m",
        }
    }
}

pub struct Picture<'a> {
    pub stored: &'a Stored,
    pub survey: &'a Survey,
    /// a line for each slip too
    pub with_items: bool,
    pub in_hex: bool,
    pub in_colour: bool,
}

// writing to a string does not fail, so the answers of `writeln!` are dropped
impl Picture<'_> {
    pub fn text(&self) -> String {
        let shape = self.survey.shape;
        let mut text = format!(
            "{}: {} of {} bytes, words of {}, addresses {} to {}\none character: {} bytes\n\n",
            self.stored.name.display(),
            counted(shape.pages() as usize, "page", "pages"),
            shape.page,
            shape.word,
            shape.start,
            shape.end - 1,
            self.words_per_character() * shape.word as usize,
        );
        for page in &self.survey.pages {
            self.page(&mut text, page);
        }
        let count = |state| self.survey.pages.iter().map(|page| page.count(state)).sum();
        let [waiting, popped, torn]: [usize; 3] =
            [ItemState::Waits, ItemState::Popped, ItemState::Torn].map(count);
        let listed = self.survey.list.len();
        let head = format!("all pages: {waiting} waiting, {listed} of them on the list;");
        let all = joined(&head, &format!("{popped} popped, {torn} torn"));
        let _ = writeln!(text, "\n{all}\n\n{LEGEND}");
        text
    }

    fn words_per_character(&self) -> usize {
        let shape = self.survey.shape;
        let words = ((shape.page - 2 * shape.word) / shape.word) as usize;
        words.div_ceil(WIDTH)
    }

    fn page(&self, text: &mut String, page: &Page) {
        let (head, tail) = self.heading(page);
        let _ = writeln!(text, "{}", joined(&head, &tail));
        let (start_mark, end_mark) = match page.state {
            PageState::Open => (':', ':'),
            PageState::PartialOpen => ('|', ':'),
            PageState::Closed => ('|', '|'),
            PageState::Corrupted => (':', '|'),
        };
        let _ = write!(text, "  {start_mark}");
        for cells in self.cells(page).chunks(self.words_per_character()) {
            let cell = cells.iter().max().copied().unwrap_or(Cell::Free);
            match cell.colour() {
                colour if self.in_colour && !colour.is_empty() => {
                    let _ = write!(text, "{colour}{}\x1b[0m", cell.letter());
                }
                _ => text.push(cell.letter()),
            }
        }
        let _ = writeln!(text, "{end_mark}");
        for item in page.items.iter().filter(|_| self.with_items) {
            let _ = writeln!(text, "{}", self.item(item));
        }
    }

    /// What is said of a page, in two parts.
    fn heading(&self, page: &Page) -> (String, String) {
        let mut head = format!("page {} at {}, {}", page.number, page.address, page.state);
        if let Some((oldest, current)) = self.survey.ends {
            head += if page.number == oldest {
                ", oldest"
            } else {
                ""
            };
            head += if page.number == current {
                ", current"
            } else {
                ""
            };
        }
        let off_list = match self.survey.off_list(page) {
            0 => String::new(),
            count => format!(" ({count} not on the list)"),
        };
        let tail = format!(
            "{} waiting{off_list}, {} popped, {} torn, {} free",
            page.count(ItemState::Waits),
            page.count(ItemState::Popped),
            page.count(ItemState::Torn),
            counted(page.left(self.survey.shape) as usize, "byte", "bytes"),
        );
        (head + ":", tail)
    }

    fn item(&self, item: &Item) -> String {
        let line = format!(
            "    at {}: {}, {:6}  {}",
            item.address,
            counted(item.length as usize, "byte", "bytes"),
            item.state,
            shown(self.stored.payload(item), self.in_hex)
        );
        cut(&line, COLUMNS)
    }

    /// The words of a page's data, the marks left out.
    fn cells(&self, page: &Page) -> Vec<Cell> {
        let shape = self.survey.shape;
        let word = shape.word as usize;
        let data_start = (page.address + shape.word) as usize;
        let data_len = shape.page as usize - 2 * word;
        if page.is_erased {
            return vec![Cell::Free; data_len / word];
        }
        let data = &self.stored.image[data_start..][..data_len];
        let empty = |(index, bytes): (usize, &[u8])| {
            if data_start + index * word < page.free as usize {
                Cell::NoHeader
            } else if is_erased(bytes) {
                Cell::Free
            } else {
                Cell::Dirty
            }
        };
        let mut cells: Vec<Cell> = data.chunks(word).enumerate().map(empty).collect();
        let index = |address: u32| (address as usize - data_start) / word;
        for item in &page.items {
            let kind = match item.state {
                ItemState::Waits if self.survey.is_on_list(item) => Kind::Waits,
                ItemState::Waits => Kind::NotListed,
                ItemState::Popped => Kind::Popped,
                ItemState::Torn => Kind::Torn,
            };
            let (header, payload) = (index(item.address), index(item.payload));
            let payload_words = (item.length as usize).div_ceil(word);
            cells[header..payload].fill(Cell::Header(kind));
            cells[payload..payload + payload_words].fill(Cell::Payload(kind));
        }
        cells
    }
}

/// Two parts of a line; on two lines where one is too long, the second as far in as it fits, by four columns at most.
fn joined(head: &str, tail: &str) -> String {
    if head.len() + 1 + tail.len() <= COLUMNS {
        return format!("{head} {tail}");
    }
    let margin = COLUMNS.saturating_sub(tail.len()).min(4);
    format!("{head}\n{:margin$}{tail}", "")
}

#[cfg(test)]
mod tests {
    use super::*;
    use slipq::{Error, Queue, Shape};

    fn text(image: Vec<u8>, shape: Shape) -> String {
        let stored = Stored {
            name: "a".into(),
            image,
            shape,
        };
        let picture = Picture {
            survey: &Survey::of(&stored.image, shape),
            stored: &stored,
            with_items: true,
            in_hex: false,
            in_colour: false,
        };
        picture.text()
    }

    #[test]
    fn a_page_of_each_kind() {
        let shape = Shape::of(2, 80, 4);
        let mut image = vec![0xff; 160];
        let mut queue = Queue::new(&mut image, shape).unwrap();
        queue.push(b"one", false).unwrap();
        queue.push(b"three", false).unwrap();
        queue.pop(&mut [0; 80]).unwrap();
        assert_eq!(queue.push_limited(b"cut", false, 1), Err(Error::Cut));
        assert_eq!(queue.push_limited(b"torn here", false, 4), Err(Error::Cut));
        image[150] = 0;
        let text = text(image, shape);
        let lines: Vec<&str> = text.lines().collect();
        assert_eq!(
            lines[..11],
            [
                "a: 2 pages of 80 bytes, words of 4, addresses 0 to 159",
                "one character: 4 bytes",
                "",
                "page 0 at 0, partial, oldest, current:",
                "    1 waiting, 1 popped, 1 torn, 20 bytes free",
                "  |PPpWWww?TTttt.....:",
                "    at 4: 3 bytes, popped  \"one\"",
                "    at 16: 5 bytes, waits   \"three\"",
                "    at 36: 9 bytes, torn    746f726e20686572ff",
                "page 1 at 80, open: 0 waiting, 0 popped, 0 torn, 72 bytes free",
                "  :................!.:",
            ]
        );
    }

    #[test]
    fn the_longest_lines_of_the_largest_queue_have_80_columns() {
        let parts = [
            [
                "page 255 at 4294836224, corrupted, oldest, current:",
                "1000 waiting (1000 not on the list), 1000 popped, 1000 torn, 20000 bytes free",
            ],
            [
                "all pages: 1000000 waiting, 1000000 of them on the list;",
                "100000 popped, 100000 torn",
            ],
        ];
        for [head, tail] in parts {
            let text = joined(head, tail);
            assert_eq!(text.lines().count(), 2);
            assert!(text.lines().all(|line| line.len() <= COLUMNS), "{text}");
        }
        assert_eq!(joined("a:", "b"), "a: b");
    }
}
