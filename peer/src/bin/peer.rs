//! The command: `peer list`, `peer item B K`, `peer rewrite` and `peer check`,
//! each of one file, of several in turn, or of standard input.

#![forbid(unsafe_code)]

use std::ffi::{OsStr, OsString};
use std::io::{self, BufWriter, Read, Write};
use std::os::unix::ffi::OsStrExt;
use std::process::ExitCode;

use peer::{list, list_answer, list_item, report, rewrite, Answer};

const USAGE: &str = "usage: peer list|item B K|rewrite|check [FILE..]";

/// The statuses the command ends with: the highest of what happened.
const DONE: u8 = 0;
const REFUSED: u8 = 1;
const FAILED: u8 = 2;

/// What is asked of each file.
#[derive(Clone, Copy)]
enum Question {
    List,
    Item(u64, u64),
    Rewrite,
    Check,
}

fn main() -> ExitCode {
    let arguments: Vec<OsString> = std::env::args_os().skip(1).collect();
    let arguments: Vec<&[u8]> = arguments.iter().map(|argument| argument.as_bytes()).collect();
    let mut errors = BufWriter::new(io::stderr().lock());
    let said = match question(&arguments) {
        Some((question, names)) => {
            let out = BufWriter::new(io::stdout().lock());
            let several = names.len() > 1;
            Run { question, several, out, errors: &mut errors }.inputs(names)
        }
        None => writeln!(errors, "{USAGE}").map(|()| FAILED),
    };
    let status = said.unwrap_or_else(|error| {
        // Where standard error fails itself, there is nobody left to tell.
        let _ = writeln!(errors, "standard output: {error}");
        FAILED
    });
    ExitCode::from(errors.flush().map_or(FAILED, |()| status))
}

/// What the arguments ask, and the names of the files.
fn question<'a, 'b>(arguments: &'a [&'b [u8]]) -> Option<(Question, &'a [&'b [u8]])> {
    match arguments {
        [b"list", names @ ..] => Some((Question::List, names)),
        [b"item", batch, number, names @ ..] => {
            Some((Question::Item(count(batch)?, count(number)?), names))
        }
        [b"rewrite", names @ ..] => Some((Question::Rewrite, names)),
        [b"check", names @ ..] => Some((Question::Check, names)),
        _ => None,
    }
}

/// A number of any length; one above 2^64-1 is as good as that, for no file
/// has so many batches or items.
fn count(argument: &[u8]) -> Option<u64> {
    if argument.is_empty() || !argument.iter().all(u8::is_ascii_digit) {
        return None;
    }
    let digits = argument.iter().map(|byte| u64::from(byte - b'0'));
    Some(digits.fold(0, |value: u64, digit| value.saturating_mul(10).saturating_add(digit)))
}

/// A question, and where its answers go.
struct Run<O, E> {
    question: Question,
    /// Are there two files or more?
    several: bool,
    out: O,
    errors: E,
}

impl<O: Write, E: Write> Run<O, E> {
    /// Asks about each input in turn; gives the status.
    fn inputs(&mut self, names: &[&[u8]]) -> io::Result<u8> {
        let mut status = DONE;
        if names.is_empty() {
            let mut file = Vec::new();
            let read = io::stdin().lock().read_to_end(&mut file).map(|_| file);
            status = self.input(b"standard input", read)?;
        }
        for name in names {
            let read = std::fs::read(OsStr::from_bytes(name));
            status = status.max(self.input(name, read)?);
        }
        self.out.flush()?;
        Ok(status)
    }

    /// Asks about one input. One that can't be read is told of and no more.
    fn input(&mut self, name: &[u8], read: io::Result<Vec<u8>>) -> io::Result<u8> {
        match read {
            Ok(file) if self.answer(name, &file)?.is_accepted() => Ok(DONE),
            Ok(_) => Ok(REFUSED),
            Err(error) => {
                self.errors.write_all(name)?;
                writeln!(self.errors, ": {error}")?;
                Ok(FAILED)
            }
        }
    }

    /// Prints the answer, under a title if there are several files. Rewriting
    /// has one only of a refused file.
    fn answer(&mut self, name: &[u8], file: &[u8]) -> io::Result<Answer> {
        let title = if self.several { [b"input=", name, b"\n"].concat() } else { vec![] };
        match self.question {
            Question::List => {
                self.out.write_all(&title)?;
                list(file, &mut self.out)
            }
            Question::Item(batch, number) => {
                self.out.write_all(&title)?;
                list_item(file, batch, number, &mut self.out)
            }
            Question::Rewrite => {
                let written = rewrite(file);
                self.out.write_all(&written.bytes)?;
                if written.answer.is_accepted() {
                    return Ok(written.answer);
                }
                self.errors.write_all(&title)?;
                list_answer(&written.answer, &mut self.errors)
            }
            Question::Check => report(name, file, &mut self.out),
        }
    }
}
