//! `measure ROUNDS` times the whole-file check of the proved library, of the
//! second program, and one pass over the bytes, on month-end files of 100,000
//! items: one after the other in each round, so that what the machine does
//! besides falls on all of them alike. It prints a line of numbers a file and
//! reader: lines an item, reader, then the ratio to the second program:
//! median, lowest and highest tenth.
//!
//! `measure once READER LINES` reads the file once, for counting instructions.

#![forbid(unsafe_code)]

use bench::{Month, THIRTEEN_TEN};
use std::hint::black_box;
use std::process::ExitCode;
use std::time::Instant;

type Reader = fn(&[u8]) -> u64;

const READERS: [(&str, Reader); 4] =
    [("peer", peer), ("library", library), ("bytes", bytes), ("words", words)];

fn library(file: &[u8]) -> u64 {
    clieop::check(file).line
}

fn peer(file: &[u8]) -> u64 {
    peer::check(file).line
}

/// One pass over the bytes, one after the other: a running checksum.
fn bytes(file: &[u8]) -> u64 {
    file.iter().fold(0, |sum: u64, byte| sum.rotate_left(5) ^ u64::from(*byte))
}

/// One pass that the compiler turns into wide instructions: how many bytes
/// are printable.
fn words(file: &[u8]) -> u64 {
    file.iter().map(|byte| u64::from(matches!(byte, 32..=126))).sum()
}

/// Another name for no reader at all: what making the file costs.
fn nothing(_: &[u8]) -> u64 {
    0
}

fn month_end(lines: u64) -> Vec<u8> {
    let mut file = Vec::new();
    let month = Month { batches: 1, items: 100_000, lines, end: THIRTEEN_TEN };
    month.write(&mut file).expect("memory");
    file
}

fn seconds(reader: Reader, file: &[u8]) -> f64 {
    let began = Instant::now();
    black_box(reader(black_box(file)));
    began.elapsed().as_secs_f64()
}

fn rounds(count: usize, lines: u64) {
    let file = month_end(lines);
    let mut ratios = vec![Vec::new(); READERS.len()];
    for _ in 0..count {
        let times: Vec<f64> = READERS.iter().map(|(_, reader)| seconds(*reader, &file)).collect();
        for (ratio, time) in ratios.iter_mut().zip(&times) {
            ratio.push(time / times[0]);
        }
    }
    for ((name, _), mut ratio) in READERS.into_iter().zip(ratios) {
        ratio.sort_by(f64::total_cmp);
        let at = |part: usize| ratio[(count - 1) * part / 10];
        println!("{lines} {name} {:.3} {:.3} {:.3}", at(5), at(1), at(9));
    }
}

fn main() -> ExitCode {
    let words: Vec<String> = std::env::args().skip(1).collect();
    match &words[..] {
        [count] => match count.parse() {
            Ok(count) if count > 0 => [7, 2, 1].into_iter().for_each(|lines| rounds(count, lines)),
            _ => return usage(),
        },
        [once, name, lines] if once == "once" => {
            let found = READERS.into_iter().find(|(reader, _)| reader == name);
            let reader = found.map_or(nothing as Reader, |(_, reader)| reader);
            let Ok(lines) = lines.parse() else { return usage() };
            println!("{}", reader(&month_end(lines)));
        }
        _ => return usage(),
    }
    ExitCode::SUCCESS
}

fn usage() -> ExitCode {
    eprintln!("usage: measure ROUNDS | measure once READER LINES");
    ExitCode::from(2)
}
