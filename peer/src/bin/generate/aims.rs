//! One file for each answer of the table.

use peer::table::{
    reachable, Class, Detail, Field, Met, ANY, CODES, FIELDS, OTHER, SHORT, START, UNCHECKED,
    UNENDED,
};
use peer::Ending;

use crate::bytes::after_the_trailer;
use crate::ends;
use crate::faults;
use crate::line::{join, End, Line};
use crate::plan::is_unchecked;
use crate::random::Random;
use crate::records::stray;
use crate::scenarios::over_the_total;
use crate::spoil::spoil_field;
use crate::valid;

/// All but item 100,001, which takes a huge file.
pub fn all() -> Vec<Met> {
    reachable().into_iter().filter(|aim| (aim.answer, aim.column) != (8, 1)).collect()
}

pub fn file(random: &mut Random, aim: Met) -> Vec<u8> {
    let ending = match aim.ending {
        Ending::Unknown => *random.pick(&Ending::BOTH),
        fixed => fixed,
    };
    join(&lines(random, aim), ending)
}

pub fn lines(random: &mut Random, aim: Met) -> Vec<Line> {
    match aim.answer {
        0 => valid::file(random),
        1 => broken(random, aim),
        2 => unknown(random, aim),
        3 => misplaced(random, aim),
        8 => over_the_total(random),
        10 => {
            let (mut lines, upto) = valid::with_place(random, |lines| ends_in(lines, aim.after));
            lines.truncate(upto);
            lines
        }
        11 => after_the_trailer(random),
        _ => of_field(random, aim),
    }
}

fn ends_in(lines: &[Line], code: &str) -> bool {
    match lines.last() {
        None => code == START,
        Some(line) => code == ANY || line.is(code),
    }
}

fn of_field(random: &mut Random, aim: Met) -> Vec<Line> {
    let mut rows = FIELDS.into_iter().chain(UNCHECKED);
    let is_it = |field: &Field| (field.code, field.column) == (aim.record, aim.column);
    let field = rows.find(is_it).expect("only fields have these answers");
    let detail = field.unchecked();
    let begins = detail.map_or(field.code, |(begins, _)| begins);
    let fits = |lines: &[Line]| ends_in(lines, begins) && can_have(lines, field, aim.answer);
    let (mut lines, upto) = valid::with_place(random, fits);
    let line = &mut lines[upto - 1];
    faults::put(random, line, field, aim.answer);
    match detail {
        Some((_, Detail::Digits(digits))) => {
            while line.number(field.column, 10).to_string().len() != digits {
                faults::put(random, line, field, aim.answer);
            }
        }
        Some((_, Detail::And(column))) => second_fault(random, line, column, aim.answer),
        None => {}
    }
    lines
}

/// Another fault in the transaction; one of the two is 14.
fn second_fault(random: &mut Random, line: &mut Line, column: usize, first: u8) {
    let is_it = |field: &Field| (field.code, field.column) == ("0100A", column);
    let field = FIELDS.into_iter().find(is_it).expect("the table has its column");
    let fitting = |&answer: &u8| (answer == 14) != (first == 14);
    let answers: Vec<u8> = field.answers.iter().copied().filter(fitting).collect();
    let answer = *random.pick(&answers);
    faults::put(random, line, field, answer);
}

/// Can this field of the last line have this answer? 7 needs something to
/// differ from, 14 an unchecked type and the other party's field.
fn can_have(lines: &[Line], field: Field, answer: u8) -> bool {
    let debits = lines.len() > 1 && lines[1].text(6, 2) == "10";
    let is_own = debits == (field.column == 32);
    match (answer, field.class) {
        (7, Class::Group | Class::Sequence) => lines.len() > 2,
        (7, Class::NameCode) => debits,
        (7, Class::Account) => is_own,
        (14, _) => !is_own && lines.last().is_some_and(|line| is_unchecked(&line.text(6, 4))),
        _ => true,
    }
}

/// A line cut short, without an end, or with the other one.
fn broken(random: &mut Random, aim: Met) -> Vec<Line> {
    let (mut lines, at) = match aim.after {
        ANY => with_later(random, aim.record),
        after => valid::with_place(random, |lines| ends_in(lines, after)),
    };
    match aim.record {
        SHORT => {
            lines.truncate(at + 1);
            cut_short(random, &mut lines[at]);
        }
        UNENDED => lines[at].end = ends::neither(random),
        _ => lines[at].end = End::Other,
    }
    lines
}

fn cut_short(random: &mut Random, line: &mut Line) {
    if random.one_in(4) {
        line.end = End::WithoutTen;
    } else {
        line.end = End::Bytes(vec![]);
        line.body.truncate(random.between(1, 50) as usize);
    }
}

/// A file with a line of this code that isn't its first, and the number of
/// that line. Of codes that a valid file doesn't have there one is put in.
fn with_later(random: &mut Random, code: &str) -> (Vec<Line>, usize) {
    if !matches!(code, "0001A" | OTHER) {
        let (lines, found) = valid::with_line(random, code);
        return (lines, *random.pick(&found));
    }
    let mut lines = valid::file(random);
    let at = 1 + random.index(lines.len() - 1);
    let line = match code {
        OTHER => Line::new(unknown_code(random)),
        _ => stray(random, code),
    };
    lines.insert(at, line);
    (lines, at)
}

/// A code that isn't in the table, or with a variant that isn't.
fn unknown(random: &mut Random, aim: Met) -> Vec<Line> {
    let after = if aim.after == ANY { *random.pick(&CODES[..13]) } else { aim.after };
    let (mut lines, upto) = valid::with_place(random, |lines| ends_in(lines, after));
    let code = match aim.record {
        OTHER | ANY => unknown_code(random),
        code => code.into(),
    };
    let mut line = lines[upto].clone();
    line.set(1, code);
    while CODES.iter().any(|code| line.is(code)) {
        line.body[4] = random.byte();
    }
    lines.insert(upto, line);
    lines
}

fn unknown_code(random: &mut Random) -> String {
    loop {
        let code = format!("{:04}", random.below(10_000));
        if !CODES.iter().any(|known| known.starts_with(&code)) {
            return code;
        }
    }
}

/// A record where it may not stand.
fn misplaced(random: &mut Random, aim: Met) -> Vec<Line> {
    let fits = |lines: &[Line]| ends_in(lines, aim.after) && refuses(lines, aim.record);
    let (mut lines, upto) = valid::with_place(random, fits);
    let mut line = stray(random, aim.record);
    if random.one_in(4) {
        spoil_field(random, &mut line);
    }
    lines.insert(upto, line);
    lines
}

/// After these lines, is this record out of place? Of the pairs that depend
/// on the item; the others of the table always are.
fn refuses(lines: &[Line], record: &str) -> bool {
    let code = lines.last().map_or(START.into(), |line| line.text(1, 5));
    let kind = lines.iter().rev().find(|line| line.is("0100A")).map(|line| line.text(6, 4));
    let kind = kind.as_deref().unwrap_or("");
    let payment_lacks_name = matches!(kind, "0000" | "0003");
    let run = lines.iter().rev().take_while(|line| line.is(&code)).count();
    let referenced = ends_in(&lines[..lines.len() - run], "0150A");
    match (code.as_str(), record) {
        ("0020A", "0020A") => run == 4,
        ("0160A", "0160A") => run + usize::from(referenced) == 4,
        ("0100A", "0110B") => kind != "1002",
        ("0100A", "0150A" | "0160A") => kind == "1002",
        ("0100A", "0100A" | "9990A") => payment_lacks_name || kind == "1002",
        ("0150A" | "0160A", "0100A" | "9990A") => payment_lacks_name,
        ("0100A" | "0150A" | "0160A", "0170B") => !payment_lacks_name,
        _ => true,
    }
}
