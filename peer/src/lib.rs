//! A second, independent reader and writer of CLIEOP03 files.
//!
//! It was written from the scope paper (01-scope.md) and the requests that
//! changed it (02-change-requests.md) alone, to be compared file by file with
//! another program. Where the paper left a choice, NOTES.md
//! says what was chosen and which sentence led there.
//!
//! * [`check`] reads a whole file and gives one answer, [`totals`] the items
//!   and cents of its closed batches;
//! * [`report`] says it in words, with the line refused;
//! * [`State::line`] reads one line and gives the next state;
//! * [`list`] prints the listing;
//! * [`item`] hands out one item of one batch, [`list_item`] prints it;
//! * [`Writer`] writes one record at a time, [`rewrite`] a whole file again.

#![forbid(unsafe_code)]

mod answer;
mod check;
mod ending;
mod fields;
mod items;
mod listing;
mod order;
mod records;
mod report;
mod state;
pub mod table;
mod writer;

pub use answer::{number, Answer};
pub use check::{check, totals};
pub use ending::Ending;
pub use fields::{date_exists, eleven_check};
pub use items::{item, Item, DESCRIPTION_ROOM};
pub use listing::{list, list_answer, list_item};
pub use records::{
    Batch, BatchHeader, BatchTrailer, FileHeader, Group, OrderingParty, Record, TestCode, Totals,
    Transaction, TransactionType, Variant,
};
pub use report::report;
pub use state::{LineRead, Place, State, LONGEST_FILE};
pub use writer::{rewrite, Entry, Rewritten, Writer, Written, LINE_LENGTH};
