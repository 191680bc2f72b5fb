//! `generate SEED COUNT DIR [FIRST]` writes the files FIRST (0 if not said) and
//! on, COUNT of them, as `NNNNNNN.cli` into DIR: around one third valid, the
//! others damaged on purpose. `generate SEED largest FILE` writes the one with
//! the largest total amount, some 54 MB.
//!
//! The files are built from a model of this program's own, which never asks
//! the reader whether one is valid; of the library only the table of answers
//! and the names of the line ends are used. File n of a seed is the same
//! whatever COUNT and FIRST are.

#![forbid(unsafe_code)]

mod aims;
mod bytes;
mod ends;
mod faults;
mod huge;
mod largest;
mod later;
mod line;
mod plan;
mod random;
mod records;
mod scenarios;
mod special;
mod spoil;
mod structure;
mod valid;
mod values;

use std::fs::File;
use std::io::{self, BufWriter};
use std::path::Path;
use std::process::ExitCode;

use later::Later;
use line::join;
use peer::table::Met;
use peer::Ending;
use random::Random;

fn main() -> ExitCode {
    let arguments: Vec<String> = std::env::args().skip(1).collect();
    let Some((seed, wanted, path)) = parse(&arguments) else {
        eprintln!("usage: generate SEED COUNT DIR [FIRST] | generate SEED largest FILE");
        return ExitCode::from(2);
    };
    let written = match wanted {
        Wanted::Files { first, count } => write_files(seed, first, count, Path::new(path)),
        Wanted::Largest => write_largest(seed, Path::new(path)),
    };
    match written {
        Ok(()) => ExitCode::SUCCESS,
        Err(error) => {
            eprintln!("{path}: {error}");
            ExitCode::from(2)
        }
    }
}

/// What is to be written.
enum Wanted {
    Files { first: u64, count: u64 },
    Largest,
}

fn parse(arguments: &[String]) -> Option<(u64, Wanted, &str)> {
    let [seed, wanted, path, first @ ..] = arguments else { return None };
    let wanted = match (wanted.as_str(), first) {
        ("largest", []) => Wanted::Largest,
        (count, []) => Wanted::Files { first: 0, count: count.parse().ok()? },
        (count, [first]) => {
            Wanted::Files { first: first.parse().ok()?, count: count.parse().ok()? }
        }
        _ => return None,
    };
    Some((seed.parse().ok()?, wanted, path))
}

fn write_largest(seed: u64, path: &Path) -> io::Result<()> {
    largest::write(&mut Random::new(seed, 0), &mut BufWriter::new(File::create(path)?))
}

/// What a file is made for.
enum Aim {
    Answer(Met),
    Later(Later),
}

fn write_files(seed: u64, first: u64, count: u64, dir: &Path) -> io::Result<()> {
    std::fs::create_dir_all(dir)?;
    let later = later::all().into_iter().map(Aim::Later);
    let aims: Vec<Aim> = later.chain(aims::all().into_iter().map(Aim::Answer)).collect();
    for index in first..first + count {
        let mut random = Random::new(seed, index);
        let file = generate(&mut random, index, &aims);
        std::fs::write(dir.join(format!("{index:07}.cli")), file)?;
    }
    Ok(())
}

/// One file. Every third takes the next answer after closed batches, and then
/// of the table, so that each is met soon; a few among the first are huge; the
/// others are left to chance.
fn generate(random: &mut Random, index: u64, aims: &[Aim]) -> Vec<u8> {
    if let Some((scenario, ending)) = huge::scenario(index) {
        return join(&huge::file(random, scenario), ending);
    }
    if index.is_multiple_of(3) {
        return match aims[(index / 3) as usize % aims.len()] {
            Aim::Answer(met) => aims::file(random, met),
            Aim::Later(later) => later::file(random, later),
        };
    }
    let ending = *random.pick(&Ending::BOTH);
    let lines = match random.below(100) {
        0..=39 => valid::file(random),
        40..=55 => spoil::field_damage(random),
        56..=66 => structure::damage(random),
        67..=76 => scenarios::file(random),
        77..=86 => spoil::two_faults(random),
        87..=90 => ends::damage(random),
        91..=94 => return bytes::damage(random, ending),
        95..=96 => return bytes::cut(random, ending),
        97 => bytes::after_the_trailer(random),
        _ => return bytes::noise(random, ending),
    };
    join(&lines, ending)
}
