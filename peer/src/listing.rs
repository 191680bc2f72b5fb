//! The listings: key=value lines of a file, and of one item.

use std::io::{self, Write};

use crate::answer::Answer;
use crate::check::each;
use crate::items::{item, DESCRIPTION_ROOM};
use crate::records::{FileHeader, Record};

/// Prints the header's keys when its line is accepted, a batch's when its
/// trailer is, and always the totals of the batches printed and the answer;
/// gives that answer back.
pub fn list(file: &[u8], out: &mut impl Write) -> io::Result<Answer> {
    let read = each(file, |state, record| match record {
        Record::FileHeader(header) => {
            text(out, "file", FileHeader::FILE_NAME)?;
            writeln!(out, "created={:06}", header.created)?;
            text(out, "sender", &header.sender)?;
            text(out, "identification", &header.identification)?;
            writeln!(out, "duplicate={}", header.duplicate)
        }
        Record::BatchTrailer(trailer) => {
            writeln!(out, "batch={:04}", state.sequence)?;
            text(out, "group", state.group.code())?;
            writeln!(out, "account={:010}", state.account)?;
            writeln!(out, "items={}", trailer.items)?;
            writeln!(out, "amount={}", trailer.amount)?;
            writeln!(out, "accounts={:010}", trailer.accounts)
        }
        _ => Ok(()),
    })?;
    writeln!(out, "file-items={}\nfile-amount={}", read.closed.items, read.closed.amount)?;
    list_answer(&read.answer, out)
}

/// Prints the fields of an item if there is one, and the answer always; gives
/// that answer back.
pub fn list_item(file: &[u8], batch: u64, number: u64, out: &mut impl Write) -> io::Result<Answer> {
    let mut room = [b' '; DESCRIPTION_ROOM];
    let found = item(file, batch, number, &mut room);
    if let Some(kind) = found.kind {
        text(out, "type", kind.code())?;
        writeln!(out, "amount={}", found.amount)?;
        writeln!(out, "payer={:010}", found.payer)?;
        writeln!(out, "beneficiary={:010}", found.beneficiary)?;
        text(out, "reference", &found.reference)?;
        text(out, "name", &found.name)?;
        for (place, description) in room.chunks_exact(32).enumerate() {
            text(out, &format!("description{}", place + 1), description)?;
        }
    }
    list_answer(&found.answer, out)
}

/// The three lines of an answer; gives it back.
pub fn list_answer(answer: &Answer, out: &mut impl Write) -> io::Result<Answer> {
    writeln!(out, "answer={}\nline={}\ncolumn={}", answer.number, answer.line, answer.column)?;
    Ok(*answer)
}

fn text(out: &mut impl Write, key: &str, value: &[u8]) -> io::Result<()> {
    write!(out, "{key}=")?;
    out.write_all(value)?;
    out.write_all(b"\n")
}
