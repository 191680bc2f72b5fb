//! A file cut into lines as its first one ends.

use peer::table::{CODES, OTHER, START};
use peer::Ending;

/// Lines count from 1.
pub struct Lines<'a> {
    file: &'a [u8],
    pub ending: Ending,
    /// The bytes of a line, its end included. A first line that has neither
    /// end is short where 13 and 10 lack room.
    pub length: usize,
}

impl<'a> Lines<'a> {
    pub fn of(file: &'a [u8]) -> Self {
        let ending = Ending::after_line(file);
        let fixed = if ending == Ending::Ten { ending } else { Ending::ThirteenTen };
        Self { file, ending, length: fixed.line_length() }
    }

    /// The bytes from this line on; none where there is no such line.
    pub fn from(&self, line: usize) -> &'a [u8] {
        let before = line.saturating_sub(1) * self.length;
        self.file.get(before..).unwrap_or_default()
    }

    /// The first lines, this many.
    pub fn first(&self, count: usize) -> impl Iterator<Item = &'a [u8]> {
        self.file.chunks(self.length).take(count)
    }

    /// The record of this line.
    pub fn record(&self, line: usize) -> &'static str {
        record_of(self.from(line))
    }

    /// The record of the line before this one.
    pub fn record_before(&self, line: usize) -> &'static str {
        if line < 2 {
            START
        } else {
            self.record(line - 1)
        }
    }
}

/// Code and variant of the line that these bytes begin with.
fn record_of(here: &[u8]) -> &'static str {
    CODES.into_iter().find(|code| here.starts_with(code.as_bytes())).unwrap_or(OTHER)
}
