//! Damage to line ends.

use crate::line::{End, Line};
use crate::random::Random;
use crate::valid;

/// Two bytes that are neither end; often one of them would be right.
pub fn neither(random: &mut Random) -> End {
    let wrong = random.byte_that(|byte| byte != 13 && byte != 10);
    End::Bytes(match random.below(4) {
        0 => vec![13, random.byte_that(|byte| byte != 10)],
        1 => vec![wrong, 10],
        2 => vec![wrong, random.byte()],
        _ => vec![b' ', b' '],
    })
}

/// Any wrong end.
pub fn wrong(random: &mut Random) -> End {
    const ENDS: [&[u8]; 9] =
        [b"\r", b"\n\r", b"", b"\r\r", b"\n\n", b" \n", b" \r\n", b"\r\n\r\n", b"\r\r\n"];
    match random.below(4) {
        0 => neither(random),
        1 => End::Other,
        _ => End::Bytes(random.pick(&ENDS).to_vec()),
    }
}

/// Ends of one line, of all, of those from one on, or of the last.
pub fn damage(random: &mut Random) -> Vec<Line> {
    let mut lines = valid::file(random);
    let end = wrong(random);
    let at = random.index(lines.len());
    let last = lines.len() - 1;
    match random.below(9) {
        0 => lines.iter_mut().for_each(|line| line.end.clone_from(&end)),
        1 => lines[at..].iter_mut().for_each(|line| line.end.clone_from(&end)),
        2 => lines[0].end = end,
        3 => lines[last].end = end,
        4 => lines[last].end = End::WithoutTen,
        5 => {
            lines[at].end = End::WithoutTen;
            lines.truncate(at + 1);
        }
        6 => {
            // The 13 is the last character, or of an end that comes too early.
            lines[at].body[49] = 13;
            lines[at].end = End::Bytes(vec![10]);
        }
        7 => {
            // Too short or too long, with a good end.
            let length = *random.pick(&[0, 5, 40, 48, 49, 51, 52]);
            lines[at].body.resize(length, b' ');
        }
        _ => lines[at].end = end,
    }
    lines
}
