//! Why a command did not do its work, and its exit status.
use core::fmt::{Display, Formatter, Result as Formatted};
use slipq::{Error, Shape, ShapeError};

#[derive(Debug, PartialEq, Eq)]
pub enum Failure {
    /// no slip waits
    Empty,
    /// no slip is found, and the file is left as it was
    Kept(String),
    /// the call was refused, and why
    Refused(Error, String),
    /// the shape was refused, and why
    Shape(Shape, ShapeError, String),
    /// the command line is wrong
    Usage(String),
    /// the command line contradicts a shape file
    Contradicts(String),
    /// there is no shape, or a shape file that cannot be understood
    NoShape(String),
    /// a file cannot be read
    Read(String),
    /// torture found a list that is neither the one before nor the one after
    Fault(String),
    /// a file is there already
    Exists(String),
    /// a file or an answer cannot be written
    Write(String),
    /// whoever read the answers has enough
    Closed,
    /// Ctrl-C
    Stopped,
}

impl Failure {
    /// Document 01's row for its refusals; the tool's own are 64 and more.
    pub fn status(&self) -> u8 {
        match self {
            Failure::Empty | Failure::Kept(_) => 1,
            Failure::Refused(error, _) => error.row() as u8,
            Failure::Shape(_, error, _) => error.row() as u8,
            Failure::Usage(_) | Failure::Contradicts(_) => 64,
            Failure::NoShape(_) => 65,
            Failure::Read(_) => 66,
            Failure::Fault(_) => 70,
            Failure::Exists(_) => 73,
            Failure::Write(_) | Failure::Closed => 74,
            // as a shell says of a program that SIGINT ended
            Failure::Stopped => 130,
        }
    }

    /// Whether there is nothing to say: nobody asked for more.
    pub fn is_quiet(&self) -> bool {
        matches!(self, Failure::Closed | Failure::Stopped)
    }
}

impl Display for Failure {
    fn fmt(&self, f: &mut Formatter) -> Formatted {
        match self {
            Failure::Closed => f.write_str("nobody reads the answers"),
            Failure::Empty => f.write_str("empty: no slip waits"),
            Failure::Stopped => f.write_str("stopped"),
            Failure::Refused(error, says) => write!(f, "{error:?}: {says}"),
            Failure::Shape(shape, error, says) => {
                let Shape {
                    start,
                    end,
                    page,
                    word,
                } = shape;
                write!(f, "{error:?}: {says} ")?;
                write!(f, "(start {start}, end {end}, page {page}, word {word})")
            }
            Failure::Usage(says) => write!(f, "{says}; `slips help` says more"),
            Failure::Kept(says)
            | Failure::Contradicts(says)
            | Failure::NoShape(says)
            | Failure::Read(says)
            | Failure::Fault(says)
            | Failure::Exists(says)
            | Failure::Write(says) => f.write_str(says),
        }
    }
}
