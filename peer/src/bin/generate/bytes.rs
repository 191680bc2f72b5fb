//! Damage to bytes and lengths, and noise.

use peer::table::CODES;
use peer::Ending;

use crate::line::{join, Line};
use crate::random::Random;
use crate::structure::any_stray;
use crate::valid;

/// Bytes changed, put in or left out anywhere.
pub fn damage(random: &mut Random, ending: Ending) -> Vec<u8> {
    let mut bytes = join(&valid::file(random), ending);
    let times = if random.one_in(4) { 2 } else { 1 };
    for _ in 0..times {
        let at = random.index(bytes.len());
        match random.below(8) {
            0..=3 => bytes[at] = random.byte(),
            4 => bytes[at] = random.printable(),
            5 => bytes[at] = random.unprintable(),
            6 => {
                bytes.remove(at);
            }
            _ => bytes.insert(at, random.byte()),
        }
    }
    bytes
}

/// A file cut short: anywhere, at the end of a line, or in its last line.
pub fn cut(random: &mut Random, ending: Ending) -> Vec<u8> {
    let lines = valid::file(random);
    let mut bytes = join(&lines, ending);
    // All of them have the same length.
    let line = random.index(lines.len()) * (bytes.len() / lines.len());
    let length = match random.below(8) {
        0 => 0,
        1 => random.index(60),
        2 | 3 => line,
        4 => bytes.len() - 1 - random.index(3),
        5 => line + 49 + random.index(3),
        _ => random.index(bytes.len()),
    };
    bytes.truncate(length);
    bytes
}

/// Something after the file trailer.
pub fn after_the_trailer(random: &mut Random) -> Vec<Line> {
    let mut lines = valid::file(random);
    match random.below(9) {
        0 => lines.push(Line::bare(vec![26])),
        1 => lines.push(Line::bare(b"\r\n".to_vec())),
        2 => lines.push(Line::bare(vec![10])),
        3 => lines.push(Line::bare(vec![0])),
        4 => lines.push(Line::bare(vec![b' '])),
        5 => lines.push(Line::new("9999A")),
        6 => lines.push(any_stray(random)),
        7 => lines.extend(lines.clone()),
        _ => {
            let length = random.between(1, 60);
            lines.push(Line::bare((0..length).map(|_| random.byte()).collect()));
        }
    }
    lines
}

/// No CLIEOP03 file at all, or only the beginning of one.
pub fn noise(random: &mut Random, ending: Ending) -> Vec<u8> {
    let mut bytes = Vec::new();
    if random.one_in(3) {
        let lines = valid::file(random);
        let kept = random.index(lines.len());
        bytes = join(&lines[..kept], ending);
    }
    let length = *random.pick(&[0, 1, 2, 50, 51, 52, 53, 102, 104, 200]);
    let count = random.between(1, 10);
    match random.below(6) {
        0 => bytes.extend((0..length).map(|_| random.byte())),
        1 => bytes.extend((0..length).map(|_| random.printable())),
        2 => (0..count).for_each(|_| bytes.extend(join(&[any_line(random)], ending))),
        3 | 4 => (0..count).for_each(|_| bytes.extend(join(&[any_fields(random)], ending))),
        _ => (0..count).for_each(|_| bytes.extend(join(&[any_stray(random)], ending))),
    }
    bytes
}

/// A line of the right length with anything in it.
fn any_line(random: &mut Random) -> Line {
    Line::new((0..50).map(|_| random.printable()).collect::<Vec<u8>>())
}

/// A good code and anything after it.
fn any_fields(random: &mut Random) -> Line {
    let mut body = random.pick(&CODES).as_bytes().to_vec();
    let digits = random.coin();
    body.extend((0..45).map(|_| if digits { random.digit() } else { random.byte() }));
    Line::new(body)
}
