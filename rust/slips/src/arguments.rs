//! The words of a command line: options by name, and what stands between them.
use crate::failure::Failure;
use std::ffi::{OsStr, OsString};

/// An option's name, and whether a value follows it.
pub type Allowed = (&'static str, bool);

#[derive(Debug)]
pub struct Words {
    options: Vec<(&'static str, OsString)>,
    places: Vec<OsString>,
}

/// Takes the words apart. `--name value` and `--name=value` are the same; behind `--` no word is an option.
pub fn parse(
    words: impl IntoIterator<Item = OsString>,
    allowed: &[Allowed],
) -> Result<Words, Failure> {
    let mut parsed = Words {
        options: vec![],
        places: vec![],
    };
    let mut words = words.into_iter();
    while let Some(word) = words.next() {
        let text = word.to_string_lossy();
        if text == "--" {
            parsed.places.extend(words.by_ref());
            break;
        }
        let Some(rest) = text.strip_prefix("--") else {
            parsed.places.push(word);
            continue;
        };
        let (name, joined) = match rest.split_once('=') {
            None => (rest, None),
            Some((name, value)) => (name, Some(OsString::from(value))),
        };
        let option = option(name, joined, &mut words, allowed)?;
        if parsed.has(option.0) {
            return usage(format!("--{name} is given twice"));
        }
        parsed.options.push(option);
    }
    Ok(parsed)
}

/// An option and its value, which is joined to it or the next word.
fn option(
    name: &str,
    joined: Option<OsString>,
    words: &mut impl Iterator<Item = OsString>,
    allowed: &[Allowed],
) -> Result<(&'static str, OsString), Failure> {
    let Some((name, takes_value)) = allowed.iter().find(|(known, _)| *known == name) else {
        return usage(format!("there is no option --{name} here"));
    };
    let value = match (takes_value, joined) {
        (false, None) => Some(OsString::new()),
        (false, Some(_)) => return usage(format!("--{name} takes no value")),
        (true, Some(value)) => Some(value),
        (true, None) => words.next(),
    };
    match value {
        Some(value) => Ok((name, value)),
        None => usage(format!("--{name} needs a value")),
    }
}

fn usage<T>(says: String) -> Result<T, Failure> {
    Err(Failure::Usage(says))
}

impl Words {
    pub fn value(&self, name: &str) -> Option<&OsStr> {
        let option = self.options.iter().find(|(known, _)| *known == name);
        option.map(|(_, value)| value.as_os_str())
    }

    pub fn has(&self, name: &str) -> bool {
        self.value(name).is_some()
    }

    /// The number that an option has, if it is given.
    pub fn number<T: TryFrom<u64>>(&self, name: &str) -> Result<Option<T>, Failure> {
        let Some(value) = self.value(name) else {
            return Ok(None);
        };
        match number(&value.to_string_lossy()) {
            Some(number) => Ok(Some(number)),
            None => usage(format!(
                "--{name}: {value:?} is not a whole number of {} bits",
                8 * size_of::<T>()
            )),
        }
    }

    /// What stands between the options, which has to be just what is named.
    pub fn places<const N: usize>(self, names: [&str; N]) -> Result<[OsString; N], Failure> {
        let given = self.places.len();
        match self.places.try_into() {
            Ok(places) => Ok(places),
            Err(_) if N == 0 => usage("too many words: only options are taken here".into()),
            Err(places) if given > N => usage(format!("{:?} is a word too many", places[N])),
            Err(_) => usage(format!("{} is missing", names[given])),
        }
    }
}

/// A whole number: decimal, with k behind it for 1024 of them, or hexadecimal after 0x.
pub fn number<T: TryFrom<u64>>(digits: &str) -> Option<T> {
    let (digits, radix, unit) = match digits.strip_prefix("0x").or(digits.strip_prefix("0X")) {
        Some(digits) => (digits, 16, 1),
        None => match digits.strip_suffix(['k', 'K']) {
            Some(digits) => (digits, 10, 1024),
            None => (digits, 10, 1),
        },
    };
    if !digits.starts_with(|first: char| first.is_ascii_hexdigit()) {
        return None;
    }
    let number = u64::from_str_radix(digits, radix).ok()?;
    T::try_from(number.checked_mul(unit)?).ok()
}

/// Bytes from hexadecimal digits, two a byte; blanks may stand between bytes.
pub fn bytes(digits: &str) -> Result<Vec<u8>, Failure> {
    let mut bytes = vec![];
    for group in digits.split_ascii_whitespace() {
        if !group.len().is_multiple_of(2) || !group.bytes().all(|digit| digit.is_ascii_hexdigit()) {
            return usage(format!("--hex: {group:?} is no row of pairs of digits"));
        }
        for pair in group.as_bytes().chunks(2) {
            let pair = std::str::from_utf8(pair).unwrap_or_default();
            bytes.extend(u8::from_str_radix(pair, 16));
        }
    }
    Ok(bytes)
}

#[cfg(test)]
mod tests {
    use super::*;

    const ALLOWED: &[Allowed] = &[("page", true), ("hex", false)];

    fn parsed(words: &[&str]) -> Result<Words, Failure> {
        parse(words.iter().map(OsString::from), ALLOWED)
    }

    fn says(words: &[&str]) -> String {
        parsed(words).unwrap_err().to_string()
    }

    #[test]
    fn options_and_places() {
        let words = parsed(&["a", "--page", "0x20", "--hex", "--", "--b"]).unwrap();
        assert_eq!(words.number("page"), Ok(Some(32_u32)));
        assert!(words.has("hex"));
        assert_eq!(words.places(["A", "B"]).unwrap(), ["a", "--b"]);
        let words = parsed(&["--page=7"]).unwrap();
        assert_eq!(words.number("page"), Ok(Some(7_u32)));
        assert_eq!(words.number::<u32>("word"), Ok(None));
    }

    #[test]
    fn wrong_words_are_named() {
        assert!(says(&["--pages", "1"]).starts_with("there is no option --pages here"));
        assert!(says(&["--page"]).starts_with("--page needs a value"));
        assert!(says(&["--page", "1", "--page", "1"]).starts_with("--page is given twice"));
        assert!(says(&["--hex=1"]).starts_with("--hex takes no value"));
        let places = |words: &[&str]| parsed(words).unwrap().places(["FILE"]).unwrap_err();
        assert!(places(&[]).to_string().starts_with("FILE is missing"));
        assert!(
            places(&["a", "b"])
                .to_string()
                .starts_with("\"b\" is a word too many")
        );
    }

    #[test]
    fn numbers() {
        assert_eq!(number("4294967295"), Some(u32::MAX));
        assert_eq!(number("0xffffffff"), Some(u32::MAX));
        assert_eq!(number("0X10"), Some(16_u32));
        assert_eq!(number("4k"), Some(4096_u32));
        assert_eq!(number("2K"), Some(2048_u32));
        for wrong in [
            "",
            "-1",
            "+1",
            "0x",
            "4294967296",
            "1.5",
            "0x+1",
            "ff",
            " 1",
            "k",
            "0x4k",
            "4194304k",
            "0x0X1",
        ] {
            assert_eq!(number::<u32>(wrong), None, "{wrong:?}");
        }
    }

    #[test]
    fn hexadecimal_bytes() {
        assert_eq!(bytes("00 ffA0"), Ok(vec![0, 0xff, 0xa0]));
        assert_eq!(bytes(""), Ok(vec![]));
        for wrong in ["0", "0 0", "0g", "+1", "0x00", "ä"] {
            assert!(bytes(wrong).is_err(), "{wrong:?}");
        }
    }
}
