//! Lines in the wrong order or of another code.

use peer::table::CODES;

use crate::line::Line;
use crate::random::Random;
use crate::records;
use crate::valid;

pub fn spoil_code(random: &mut Random, line: &mut Line) {
    let code = line.field(1, 5);
    match random.below(6) {
        0 => code[4] = random.between(65, 68) as u8,
        1 => code[random.index(5)] = random.byte(),
        2 => code[random.index(4)] = random.digit(),
        3 => code.copy_from_slice(random.pick(&CODES).as_bytes()),
        4 => code[4] = b' ',
        _ => code[4] = code[4].to_ascii_lowercase(),
    }
}

/// A well-formed record of any kind.
pub fn any_stray(random: &mut Random) -> Line {
    let code = random.pick(&CODES);
    records::stray(random, code)
}

/// Lines dropped, doubled, swapped, moved, inserted, or of another code.
pub fn damage(random: &mut Random) -> Vec<Line> {
    let mut lines = valid::file(random);
    let at = random.index(lines.len());
    let other = random.index(lines.len());
    match random.below(10) {
        0 | 1 => {
            lines.remove(at);
        }
        2 => {
            let line = lines[at].clone();
            lines.insert(at, line);
        }
        3 => lines.swap(at, if at == 0 { 1 } else { at - 1 }),
        4 => lines.swap(at, other),
        5 => {
            let line = lines.remove(at);
            lines.insert(other, line);
        }
        6 | 7 => {
            let line = any_stray(random);
            lines.insert(at, line);
        }
        8 => lines[at] = any_stray(random),
        _ => spoil_code(random, &mut lines[at]),
    }
    lines
}
