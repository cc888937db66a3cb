//! One line that says how far a long run has come: rewritten in place on a terminal, otherwise a new line now and then.
use crate::system::{columns, is_screen};
use std::io::{Write, stderr};
use std::time::{Duration, Instant};

pub struct Progress {
    is_screen: bool,
    last: Instant,
    every: Duration,
    /// whether a line stands on the terminal that has to be wiped
    is_shown: bool,
}

impl Progress {
    pub fn new() -> Progress {
        let is_screen = is_screen(&stderr());
        let seconds = if is_screen { 0.1 } else { 10.0 };
        Progress {
            is_screen,
            last: Instant::now(),
            every: Duration::from_secs_f64(seconds),
            is_shown: false,
        }
    }

    /// Shows a line, if it is time. On a terminal it is cut, since one that goes on in the next row cannot be wiped.
    pub fn show(&mut self, line: impl FnOnce() -> String) {
        if self.last.elapsed() < self.every {
            return;
        }
        self.last = Instant::now();
        // progress that cannot be shown is no reason to stop
        let _ = if self.is_screen {
            self.is_shown = true;
            write!(stderr(), "\r\x1b[K{}", cut(&line(), columns() - 1))
        } else {
            writeln!(stderr(), "{}", line())
        };
    }

    /// Wipes the line, before other output.
    pub fn end(&mut self) {
        if std::mem::take(&mut self.is_shown) {
            let _ = write!(stderr(), "\r\x1b[K");
        }
    }
}

/// A line cut to so many columns; two dots say that there was more.
pub fn cut(line: &str, columns: usize) -> String {
    if line.chars().count() <= columns {
        return line.into();
    }
    let kept: String = line.chars().take(columns.saturating_sub(2)).collect();
    format!("{kept}..")
}

#[cfg(test)]
mod tests {
    use super::*;

    #[test]
    fn a_cut_line_says_so() {
        assert_eq!(cut("Möser", 5), "Möser");
        assert_eq!(cut("Möser, Paul", 5), "Mös..");
    }
}
