//! The numbers of a shape: as options, as the text of a shape file, and what they mean for an image of some length.
use crate::arguments::{Words, number};
use crate::failure::Failure;
use slipq::{Shape, ShapeError};

/// The numbers of a shape as far as they are given, on the command line or in a shape file.
#[derive(Clone, Copy, Debug, Default, PartialEq, Eq)]
pub struct Numbers {
    pub start: Option<u32>,
    pub page: Option<u32>,
    pub word: Option<u32>,
    pub pages: Option<u32>,
}

impl Numbers {
    pub const OPTIONS: [(&str, bool); 4] = [
        ("start", true),
        ("page", true),
        ("word", true),
        ("pages", true),
    ];

    pub fn of_words(words: &Words) -> Result<Numbers, Failure> {
        Ok(Numbers {
            start: words.number("start")?,
            page: words.number("page")?,
            word: words.number("word")?,
            pages: words.number("pages")?,
        })
    }

    /// Reads the text of a shape file: on each line a name and a number, or a remark behind #.
    pub fn of_text(text: &str) -> Result<Numbers, String> {
        let mut numbers = Numbers::default();
        for line in text.lines() {
            let line = line.split('#').next().unwrap_or_default();
            let words: Vec<&str> = line.split_whitespace().collect();
            let (name, value) = match words[..] {
                [] => continue,
                [name, value] => (name, value),
                _ => return Err(format!("{line:?} is not a name and a number")),
            };
            let place = match name {
                "start" => &mut numbers.start,
                "page" => &mut numbers.page,
                "word" => &mut numbers.word,
                "pages" => &mut numbers.pages,
                _ => return Err(format!("{name:?} is not start, page, word or pages")),
            };
            let Some(value) = number(value) else {
                return Err(format!("{value:?} is not a whole number of 32 bits"));
            };
            if place.replace(value).is_some() {
                return Err(format!("{name} is given twice"));
            }
        }
        Ok(numbers)
    }

    /// The number of pages, where it is given. A noted one counts only for the page and the start that are noted with it.
    pub fn known_pages(given: Numbers, noted: Numbers) -> Option<u32> {
        let stands = |given: Option<u32>, noted: Option<u32>| given.is_none() || given == noted;
        let is_noted =
            stands(given.page, noted.page) && stands(given.start, noted.start.or(Some(0)));
        given.pages.or(noted.pages.filter(|_| is_noted))
    }

    /// The shape for an image of so many bytes. What is given stands over what is noted. Where the number of pages is not known, the
    /// range is as many whole pages as the image has from the start on.
    pub fn shape(given: Numbers, noted: Numbers, image_len: usize) -> Result<Shape, String> {
        let unknown = |name| format!("the {name} size is not known: give --{name}");
        let page = given.page.or(noted.page).ok_or_else(|| unknown("page"))?;
        let word = given.word.or(noted.word).ok_or_else(|| unknown("word"))?;
        let start = given.start.or(noted.start).unwrap_or(0);
        let fitting = || (image_len as u64).saturating_sub(start.into()) / u64::from(page.max(1));
        let pages = Numbers::known_pages(given, noted).map_or_else(fitting, u64::from);
        let end = pages
            .checked_mul(page.into())
            .and_then(|length| length.checked_add(start.into()));
        let end = end.and_then(|end| u32::try_from(end).ok());
        let past = || {
            format!("{pages} pages of {page} bytes from {start} on end past 32 bits: give --pages")
        };
        Ok(Shape {
            start,
            end: end.ok_or_else(past)?,
            page,
            word,
        })
    }

    /// The first number that is given otherwise than it is noted: its name, what is given, what is noted. A shape file without a start
    /// means 0.
    pub fn contradiction(given: Numbers, noted: Numbers) -> Option<(&'static str, u32, u32)> {
        let pairs = [
            ("start", given.start, noted.start.or(Some(0))),
            ("page", given.page, noted.page),
            ("word", given.word, noted.word),
            ("pages", given.pages, noted.pages),
        ];
        pairs.into_iter().find_map(|(name, given, noted)| {
            let (given, noted) = (given?, noted?);
            (given != noted).then_some((name, given, noted))
        })
    }
}

/// The text of a shape file.
pub fn noted(shape: Shape) -> String {
    let Shape {
        start, page, word, ..
    } = shape;
    let pages = shape.pages();
    format!(
        "# the shape of the image beside this file, in bytes\nstart {start}\npage {page}\nword {word}\npages {pages}\n"
    )
}

/// The options that give a shape.
pub fn options(shape: Shape) -> String {
    let Shape {
        start, page, word, ..
    } = shape;
    let start = match start {
        0 => String::new(),
        _ => format!("--start {start} "),
    };
    format!(
        "{start}--page {page} --word {word} --pages {}",
        shape.pages()
    )
}

/// Why a shape is refused for an image of so many bytes: which limit, and what to give instead.
pub fn explained(shape: Shape, error: ShapeError, image_len: usize) -> String {
    let Shape {
        start,
        end,
        page,
        word,
    } = shape;
    let pages = shape.pages();
    let left = image_len.saturating_sub(start as usize);
    match error {
        ShapeError::TooLarge if page > Shape::LARGEST_PAGE => {
            let most = Shape::LARGEST_PAGE;
            format!("a page of {page} bytes is larger than {most}, the most")
        }
        ShapeError::TooLarge => {
            let most = Shape::MOST_PAGES;
            format!(
                "{pages} pages are more than {most}, the most: give --pages, and --start if the queue does not begin at {start} (`slips guess` looks for it)"
            )
        }
        ShapeError::OutsideImage => {
            let fitting = left / page.max(1) as usize;
            let ends = format!("the range ends at {end}, and the image at {image_len}");
            match fitting {
                0 => format!("{ends}, less than a page behind the start"),
                _ => format!("{ends}: give --pages, at most {fitting}"),
            }
        }
        ShapeError::RangeTooSmall if left < page as usize => format!(
            "the image has {left} bytes from {start} on, less than a page of {page}: give a smaller --page"
        ),
        ShapeError::PagesTooSmall => {
            let least = 3 * word + 8_u32.next_multiple_of(word);
            format!(
                "a page of {page} bytes is smaller than three words of {word} and a header, {least}"
            )
        }
        _ => error.to_string(),
    }
}

#[cfg(test)]
mod tests {
    use super::*;

    fn numbers(start: u32, page: u32, word: u32, pages: u32) -> Numbers {
        Numbers {
            start: Some(start),
            page: Some(page),
            word: Some(word),
            pages: Some(pages),
        }
    }

    #[test]
    fn a_shape_file_says_what_it_was_given() {
        let shape = Shape {
            start: 64,
            end: 192,
            page: 64,
            word: 8,
        };
        assert_eq!(Numbers::of_text(&noted(shape)), Ok(numbers(64, 64, 8, 2)));
        assert_eq!(Numbers::of_text("\n # none\n"), Ok(Numbers::default()));
        for wrong in ["page", "page x", "page 1 2", "size 4", "page 1\npage 1"] {
            assert!(Numbers::of_text(wrong).is_err(), "{wrong:?}");
        }
    }

    #[test]
    fn what_is_given_stands_over_what_is_noted() {
        let shape = |given, noted| Numbers::shape(given, noted, 1000);
        let none = Numbers::default();
        let noted = numbers(64, 64, 8, 2);
        let is = |start, end, page, word| {
            Ok(Shape {
                start,
                end,
                page,
                word,
            })
        };
        let page = |page| Numbers {
            page: Some(page),
            ..none
        };
        let word = |word| Numbers {
            word: Some(word),
            ..none
        };
        assert_eq!(shape(none, noted), is(64, 192, 64, 8));
        assert_eq!(shape(word(4), noted), is(64, 192, 64, 4));
        assert!(shape(word(4), none).is_err());
        assert_eq!(shape(page(32), noted), is(64, 992, 32, 8));
        assert_eq!(shape(page(64), noted), is(64, 192, 64, 8));
        let pages = Numbers {
            pages: Some(3),
            ..page(32)
        };
        assert_eq!(shape(pages, noted), is(64, 160, 32, 8));
        let start = Numbers {
            start: Some(0),
            ..none
        };
        assert_eq!(shape(start, noted), is(0, 960, 64, 8));
    }

    #[test]
    fn a_contradiction_is_named() {
        let noted = numbers(0, 64, 4, 8);
        assert_eq!(Numbers::contradiction(noted, noted), None);
        assert_eq!(
            Numbers::contradiction(numbers(0, 64, 8, 4), noted),
            Some(("word", 8, 4))
        );
        let start = Numbers {
            start: Some(64),
            ..Numbers::default()
        };
        let no_start = Numbers {
            start: None,
            ..noted
        };
        assert_eq!(
            Numbers::contradiction(start, no_start),
            Some(("start", 64, 0))
        );
        assert_eq!(Numbers::contradiction(noted, Numbers::default()), None);
    }

    #[test]
    fn a_range_past_32_bits_is_no_shape() {
        let shape = |numbers| Numbers::shape(numbers, Numbers::default(), 0);
        assert!(shape(numbers(0, 4096, 4, u32::MAX)).is_err());
        assert!(shape(numbers(u32::MAX - 31, 32, 4, 1)).is_err());
        assert!(shape(numbers(u32::MAX - 63, 32, 4, 1)).is_ok());
        let zero = shape(numbers(0, 0, 4, 1)).unwrap();
        assert_eq!(zero.check(4096).map_err(|error| error.row()), Err(9));
    }
}
