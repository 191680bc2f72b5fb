//! Fields damaged by chance.

use peer::table::{Field, CODES, FIELDS};

use crate::ends;
use crate::line::Line;
use crate::random::Random;
use crate::special::special;
use crate::structure::spoil_code;
use crate::valid::with_line;

/// Spoils one field of a line whose record is known.
pub fn spoil_field(random: &mut Random, line: &mut Line) {
    let here: Vec<Field> = FIELDS.into_iter().filter(|field| line.is(field.code)).collect();
    if !here.is_empty() {
        let field = *random.pick(&here);
        spoil(random, line, field);
    }
}

/// Damages a field; a few times over if that happened to change nothing.
fn spoil(random: &mut Random, line: &mut Line, field: Field) {
    let before = line.body.clone();
    for _ in 0..5 {
        spoil_once(random, line, field);
        if line.body != before {
            break;
        }
    }
}

/// Damages a field by its class, or in one of the ways any field can be.
fn spoil_once(random: &mut Random, line: &mut Line, field: Field) {
    let content = if random.coin() { special(random, line, field) } else { None };
    match content {
        Some(content) => line.set(field.column, content),
        None => spoil_bytes(random, line.field(field.column, field.width)),
    }
}

fn spoil_bytes(random: &mut Random, field: &mut [u8]) {
    let width = field.len();
    let at = random.index(width);
    match random.below(18) {
        0 => field[at] = random.byte(),
        1 => field[at] = random.below(32) as u8,
        2 => field[at] = random.between(127, 255) as u8,
        3 => field[at] = *random.pick(&[31, 32, 126, 127, b'/', b':', b'!', b'0', b'9']),
        4 => field.fill(b' '),
        5 => field[0] = b' ',
        6 => field.fill(b'0'),
        7 => field.fill(b'9'),
        8 => field[at] = random.between(65, 90) as u8,
        9 => field[at] = random.digit(),
        10 => field[at..].fill(b' '),
        11 => field[..=at].fill(b' '),
        12 => field[width - 1] = random.printable(),
        13 => field[0] = random.unprintable(),
        14 => field[width - 1] = random.unprintable(),
        15 => {
            // A space first, the rest kept.
            field.copy_within(..width - 1, 1);
            field[0] = b' ';
        }
        16 => field.iter_mut().for_each(|byte| *byte = random.printable()),
        _ => change_number(random, field),
    }
}

/// One more or one less, if the field is a number.
fn change_number(random: &mut Random, field: &mut [u8]) {
    let value = std::str::from_utf8(field).ok().and_then(|text| text.parse::<u64>().ok());
    match value {
        Some(value) => {
            let value = if random.coin() { value + 1 } else { value.saturating_sub(1) };
            let text = format!("{value:0width$}", width = field.len());
            let extra = text.len() - field.len();
            field.copy_from_slice(&text.as_bytes()[extra..]);
        }
        None => field[0] = b'7',
    }
}

/// One field of one record, each field of the table as likely as another.
pub fn field_damage(random: &mut Random) -> Vec<Line> {
    let field = *random.pick(&FIELDS);
    let (mut lines, found) = with_line(random, field.code);
    let number = if random.one_in(3) { found[found.len() - 1] } else { *random.pick(&found) };
    spoil(random, &mut lines[number], field);
    lines
}

/// Two faults on one line: fields, code, place or line end.
pub fn two_faults(random: &mut Random) -> Vec<Line> {
    let code = random.pick(&CODES);
    let (mut lines, found) = with_line(random, code);
    let number = *random.pick(&found);
    spoil_field(random, &mut lines[number]);
    match random.below(10) {
        0 => lines[number].end = ends::wrong(random),
        1 => spoil_code(random, &mut lines[number]),
        2 => {
            // Out of place as well.
            let line = lines.remove(number);
            let to = random.index(lines.len() + 1);
            lines.insert(to, line);
        }
        3 => {
            spoil_field(random, &mut lines[number]);
            spoil_field(random, &mut lines[number]);
        }
        _ => spoil_field(random, &mut lines[number]),
    }
    lines
}
