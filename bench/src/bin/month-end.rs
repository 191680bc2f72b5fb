//! `month-end BATCHES ITEMS LINES [lf]` writes a file of BATCHES batches of
//! ITEMS items (at most 100,000) of LINES lines (1, 2 or 7) to standard output,
//! each ended by 13 and 10, or with `lf` by 10 alone.

#![forbid(unsafe_code)]

use bench::{Month, TEN, THIRTEEN_TEN};
use std::io::{self, BufWriter, Write};
use std::process::ExitCode;

fn month(words: &[String]) -> Option<Month> {
    let (numbers, end) = match words {
        [numbers @ .., last] if last == "lf" => (numbers, TEN),
        numbers => (numbers, THIRTEEN_TEN),
    };
    let numbers: Option<Vec<u64>> = numbers.iter().map(|word| word.parse().ok()).collect();
    match numbers?[..] {
        [batches, items, lines @ (1 | 2 | 7)] => Some(Month { batches, items, lines, end }),
        _ => None,
    }
}

fn main() -> ExitCode {
    let words: Vec<String> = std::env::args().skip(1).collect();
    let Some(month) = month(&words) else {
        eprintln!("usage: month-end BATCHES ITEMS LINES [lf]");
        return ExitCode::from(2);
    };
    let mut out = BufWriter::with_capacity(1 << 20, io::stdout().lock());
    match month.write(&mut out).and_then(|()| out.flush()) {
        Ok(()) => ExitCode::SUCCESS,
        Err(error) => {
            eprintln!("month-end: {error}");
            ExitCode::from(1)
        }
    }
}
