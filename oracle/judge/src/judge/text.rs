//! Cases and outcomes as lines of text. Bytes are in hexadecimal; `-` stands for no bytes, and for no limit.
use crate::{Call, Case, Outcome, Shape};
use core::fmt::{Display, Formatter, Result as Formatted};
use core::str::FromStr;

const CALLS: [(&str, Call); 6] = [
    ("push", Call::Push),
    ("peek", Call::Peek),
    ("pop", Call::Pop),
    ("find_max_fit", Call::FindMaxFit),
    ("space_left", Call::SpaceLeft),
    ("erase_all", Call::EraseAll),
];

impl Display for Call {
    fn fmt(&self, f: &mut Formatter) -> Formatted {
        let (name, _) = CALLS.iter().find(|(_, call)| call == self).unwrap();
        f.write_str(name)
    }
}

/// call, start, end, page, word, limit, overwrite, image, slip, buffer
impl Display for Case {
    fn fmt(&self, f: &mut Formatter) -> Formatted {
        let Shape {
            start,
            end,
            page,
            word,
        } = self.shape;
        let limit = self.limit.map_or("-".into(), |limit| limit.to_string());
        write!(f, "{} {start} {end} {page} {word} ", self.call)?;
        write!(f, "{limit} {} ", u8::from(self.overwrite))?;
        write!(
            f,
            "{} {} {}",
            hex(&self.image),
            hex(&self.slip),
            hex(&self.buffer)
        )
    }
}

impl FromStr for Case {
    type Err = String;

    fn from_str(line: &str) -> Result<Case, String> {
        let fields: Vec<&str> = line.split_ascii_whitespace().collect();
        let [
            call,
            start,
            end,
            page,
            word,
            limit,
            overwrite,
            image,
            slip,
            buffer,
        ] = fields[..]
        else {
            return Err(format!("{} fields, and not 10", fields.len()));
        };
        let call = CALLS.iter().find(|(name, _)| *name == call);
        let (_, call) = call.ok_or("no such call")?;
        Ok(Case {
            call: *call,
            shape: Shape {
                start: number(start)?,
                end: number(end)?,
                page: number(page)?,
                word: number(word)?,
            },
            limit: match limit {
                "-" => None,
                some => Some(number(some)? as usize),
            },
            overwrite: match overwrite {
                "0" => false,
                "1" => true,
                _ => return Err("the overwrite flag is 0 or 1".into()),
            },
            image: bytes(image)?,
            slip: bytes(slip)?,
            buffer: bytes(buffer)?,
        })
    }
}

/// numbers (or what came in their place, with _ for each space), number of stores, image, buffer
impl Display for Outcome {
    fn fmt(&self, f: &mut Formatter) -> Formatted {
        let numbers: Vec<String> = self.numbers.iter().map(u32::to_string).collect();
        let answer = match &self.failure {
            None => numbers.join(","),
            Some(name) => name.replace(' ', "_"),
        };
        let (image, buffer) = (hex(&self.image), hex(&self.buffer));
        write!(f, "{answer} {} {image} {buffer}", self.stores.len())
    }
}

pub fn hex(bytes: &[u8]) -> String {
    if bytes.is_empty() {
        return "-".into();
    }
    bytes.iter().map(|byte| format!("{byte:02x}")).collect()
}

fn bytes(digits: &str) -> Result<Vec<u8>, String> {
    if digits == "-" {
        return Ok(vec![]);
    }
    if !digits.len().is_multiple_of(2) {
        return Err("an odd number of digits".into());
    }
    let digit = |digit: u8| {
        let value = char::from(digit).to_digit(16).map(|value| value as u8);
        value.ok_or("no digit".to_string())
    };
    let pairs = digits.as_bytes().chunks(2);
    pairs
        .map(|pair| Ok(digit(pair[0])? << 4 | digit(pair[1])?))
        .collect()
}

fn number(digits: &str) -> Result<u32, String> {
    digits.parse().map_err(|error| format!("{digits}: {error}"))
}
