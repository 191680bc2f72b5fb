//! The answer every entry gives: a number, a line and a column.

/// The numbers of the answer table.
pub mod number {
    /// Accepted.
    pub const ACCEPTED: u8 = 0;
    /// Neither line end after 50 characters, or not that of the first line.
    pub const LINE: u8 = 1;
    /// Code and variant are not in the record table.
    pub const UNKNOWN_RECORD: u8 = 2;
    /// The record is not allowed at this place.
    pub const PLACE: u8 = 3;
    /// The form of a field, blank or not blank against the rule included.
    pub const FORM: u8 = 4;
    /// The value of a field, zero or above its maximum included.
    pub const VALUE: u8 = 5;
    /// An account of eight digits, failing the eleven check, or an ordering
    /// account of seven digits.
    pub const ACCOUNT: u8 = 6;
    /// A field differs from what came before.
    pub const DIFFERS: u8 = 7;
    /// Item 100,001, or a batch total above its maximum.
    pub const TOO_MUCH: u8 = 8;
    /// A trailer number is wrong.
    pub const TRAILER: u8 = 9;
    /// No bytes remain before the file trailer.
    pub const UNFINISHED: u8 = 10;
    /// Something comes after the file trailer.
    pub const AFTER_TRAILER: u8 = 11;
    /// The lent room is too small.
    pub const ROOM: u8 = 12;
    /// No such batch or item.
    pub const NO_SUCH_ITEM: u8 = 13;
    /// An unchecked type with an account of nine or ten digits.
    pub const ORDINARY_ACCOUNT: u8 = 14;
    /// The state handed in cannot be one.
    pub const STATE: u8 = 24;
}

/// What a call says about a file, a line or a record.
#[derive(Clone, Copy, Debug, PartialEq, Eq)]
pub struct Answer {
    pub number: u8,
    pub line: u64,
    pub column: u8,
}

impl Answer {
    pub(crate) const fn new(number: u8, line: u64, column: u8) -> Self {
        Self { number, line, column }
    }

    pub(crate) const fn accepted(line: u64) -> Self {
        Self::new(number::ACCEPTED, line, 0)
    }

    /// Is this answer 0?
    pub const fn is_accepted(&self) -> bool {
        self.number == number::ACCEPTED
    }
}
