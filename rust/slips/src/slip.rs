//! A slip as words give it to push, and as peek and pop show it.
use crate::arguments::{Words, bytes};
use crate::failure::Failure;
use crate::file::{Stored, unread};
use crate::show::{say, say_bytes, shown};
use std::io::{Read, stdin};
use std::path::{Path, PathBuf};

/// The image file and the slip that are to be pushed.
pub fn of_words(words: Words) -> Result<(PathBuf, Vec<u8>), Failure> {
    let elsewhere = match (words.value("hex"), words.value("file")) {
        (None, None) => None,
        (Some(digits), None) => Some(bytes(&digits.to_string_lossy())?),
        (None, Some(path)) => Some(read(path.as_ref())?),
        (Some(_), Some(_)) => {
            return Err(Failure::Usage("--hex and --file are two slips".into()));
        }
    };
    Ok(match elsewhere {
        Some(slip) => {
            let [name] = words.places(["FILE"])?;
            (name.into(), slip)
        }
        None => {
            let [name, text] = words.places(["FILE", "the slip's TEXT"])?;
            (name.into(), text.into_encoded_bytes())
        }
    })
}

fn read(path: &Path) -> Result<Vec<u8>, Failure> {
    let mut slip = vec![];
    let read = if path == Path::new("-") {
        stdin().lock().read_to_end(&mut slip).map(|_| slip)
    } else {
        std::fs::read(path)
    };
    read.map_err(|error| unread(path, error))
}

/// How peek and pop show a slip.
pub struct Showing {
    in_hex: bool,
    raw: bool,
    buffer: Option<usize>,
}

impl Showing {
    pub fn of_words(words: &Words) -> Result<Showing, Failure> {
        let showing = Showing {
            in_hex: words.has("hex"),
            raw: words.has("raw"),
            buffer: words.number("buffer")?,
        };
        if showing.in_hex && showing.raw {
            return Err(Failure::Usage("--hex and --raw cannot both be".into()));
        }
        Ok(showing)
    }

    /// A buffer for one slip. No slip is longer than a page, so no buffer has to be.
    pub fn buffer(&self, stored: &Stored) -> Vec<u8> {
        let page = stored.shape.page as usize;
        vec![0; self.buffer.unwrap_or(page).min(page)]
    }

    pub fn say(&self, slip: &[u8]) -> Result<(), Failure> {
        if self.raw {
            say_bytes(slip)
        } else {
            say(&shown(slip, self.in_hex))
        }
    }
}
