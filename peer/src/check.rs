//! A whole file at once.

use std::convert::Infallible;

use crate::answer::Answer;
use crate::ending::Ending;
use crate::records::{Record, Totals};
use crate::state::State;

/// The answer for a whole file: 0 with its number of lines, or the first
/// refusal.
pub fn check(file: &[u8]) -> Answer {
    read(file, |_| {}).answer
}

/// Items and cents of a file's closed batches: of an accepted file all that
/// it has, of a refused one those closed before the refusal.
pub fn totals(file: &[u8]) -> Totals {
    read(file, |_| {}).closed
}

/// A file read to its end or first refusal.
pub(crate) struct FileRead<'a> {
    pub answer: Answer,
    /// Of the batches closed by the lines read.
    pub closed: Totals,
    /// How the lines read end.
    pub ending: Ending,
    /// What was not read: it begins with the line refused.
    pub rest: &'a [u8],
}

/// Reads a file; `see` is shown each record accepted.
pub(crate) fn read(file: &[u8], mut see: impl FnMut(&Record)) -> FileRead<'_> {
    let Ok(read) = each(file, |_, record| {
        see(record);
        Ok::<(), Infallible>(())
    });
    read
}

/// Reads a file. `visit` sees each record accepted, with the state after it,
/// and can stop the reading with an error of its own.
pub(crate) fn each<E>(
    file: &[u8],
    mut visit: impl FnMut(&State, &Record) -> Result<(), E>,
) -> Result<FileRead<'_>, E> {
    let mut state = State::new();
    let mut rest = file;
    loop {
        let line = state.line(rest);
        let Some(record) = line.record else {
            let State { closed, ending, .. } = state;
            return Ok(FileRead { answer: line.answer, closed, ending, rest });
        };
        visit(&line.state, &record)?;
        state = line.state;
        rest = &rest[line.taken..];
    }
}
