//! Fields with a fault that has one answer.

use peer::table::{Class, Field};

use crate::line::Line;
use crate::random::Random;
use crate::special::largest;
use crate::values::{
    any_account, eight_digit_account, failing_account, impossible_date, ordinary_account,
    seven_digit_account,
};

/// Puts something into this field of a good line that is answered so.
pub fn put(random: &mut Random, line: &mut Line, field: Field, answer: u8) {
    let now = line.number(field.column, field.width);
    let content = match answer {
        4 => return wrong_form(random, line, field),
        5 => wrong_value(random, line, field),
        6 => number(field, wrong_account(random, field)),
        7 => another(random, field, now),
        14 => number(field, ordinary_account(random)),
        _ => number(field, wrong_number(random, field, now)),
    };
    line.set(field.column, content);
}

fn number(field: Field, value: u64) -> String {
    format!("{value:0width$}", width = field.width)
}

/// Answer 4.
fn wrong_form(random: &mut Random, line: &mut Line, field: Field) {
    let bytes = line.field(field.column, field.width);
    let at = random.index(bytes.len());
    match field.class {
        Class::Filler => bytes[at] = random.byte_that(|byte| byte != b' '),
        Class::BatchIdentification if field.code == "0010B" => {
            bytes[at] = random.byte_that(|byte| byte != b' ');
        }
        Class::City => bytes[at] = random.unprintable(),
        Class::Text
        | Class::FileName
        | Class::Identification
        | Class::Group
        | Class::Currency
        | Class::BatchIdentification
        | Class::TestCode
        | Class::Type => match random.below(4) {
            0 => bytes.fill(b' '),
            1 => bytes[0] = b' ',
            _ => bytes[at] = random.unprintable(),
        },
        Class::OrderingName if random.coin() => {
            bytes[0] = b' ';
            bytes[1 + random.index(34)] = b'X';
        }
        Class::OrderingName => bytes[at] = random.unprintable(),
        _ if random.one_in(4) => bytes.fill(b' '),
        _ => bytes[at] = random.byte_that(|byte| !byte.is_ascii_digit()),
    }
}

/// Answer 5.
fn wrong_value(random: &mut Random, line: &Line, field: Field) -> String {
    match field.class {
        Class::Date if field.code == "0001A" && random.one_in(6) => "000000".into(),
        Class::Date => impossible_date(random),
        Class::FileName | Class::Currency => one_changed(random, line, field),
        Class::Identification => {
            let day = line.text(6, 2);
            let counter = *random.pick(&["00", "0 ", "1 ", " 1", "A1", "1A", "/1", "1:", "  "]);
            format!("{day}{counter}")
        }
        Class::Duplicate | Class::NameCode => {
            random.pick(&["0", "3", "4", "5", "6", "7", "8", "9"]).to_string()
        }
        Class::Group => {
            random.pick(&["01", "11", "20", "0 ", "1 ", "O0", "99", "0A", "~~"]).to_string()
        }
        Class::TestCode => {
            char::from(random.byte_that(|byte| byte.is_ascii_graphic() && !b"PT".contains(&byte)))
                .into()
        }
        Class::Type => random
            .pick(&["0001", "0002", "0004", "0007", "0009", "1000", "1003", "000 ", "0O00", "9999"])
            .to_string(),
        Class::Amount | Class::TotalAmount | Class::Items if random.coin() => {
            number(field, above(random, field))
        }
        _ => number(field, 0),
    }
}

/// What stands there with one character changed into another.
fn one_changed(random: &mut Random, line: &Line, field: Field) -> String {
    let mut bytes = line.text(field.column, field.width).into_bytes();
    let at = random.index(bytes.len());
    let now = bytes[at];
    bytes[at] = random.byte_that(|byte| byte.is_ascii_graphic() && byte != now);
    bytes.into_iter().map(char::from).collect()
}

fn above(random: &mut Random, field: Field) -> u64 {
    let most = 10_u64.pow(field.width as u32) - 1;
    match random.below(3) {
        0 => largest(field) + 1,
        1 => most,
        _ => random.between(largest(field) + 1, most),
    }
}

/// Answer 6.
fn wrong_account(random: &mut Random, field: Field) -> u64 {
    match random.below(3) {
        0 if field.class == Class::OwnAccount => seven_digit_account(random),
        1 => eight_digit_account(random),
        _ => failing_account(random),
    }
}

/// Answer 7, on a line where something came before.
fn another(random: &mut Random, field: Field, now: u64) -> String {
    let debits = matches!(now, 10 | 1001 | 1002);
    match field.class {
        Class::Identification => {
            let day = (now / 100 + 1 + random.below(99)) % 100;
            format!("{day:02}{:02}", random.between(1, 99))
        }
        Class::Group => if debits { "00" } else { "10" }.into(),
        Class::Sequence => number(field, (now + random.below(9_998)) % 9_999 + 1),
        Class::NameCode => "2".into(),
        Class::Type if debits => random.pick(&["0000", "0003", "0005", "0008"]).to_string(),
        Class::Type => random.pick(&["1001", "1002"]).to_string(),
        _ => loop {
            let account = any_account(random);
            if account != now {
                return number(field, account);
            }
        },
    }
}

/// Answer 9.
fn wrong_number(random: &mut Random, field: Field, now: u64) -> u64 {
    let least = u64::from(field.class != Class::TotalAccounts);
    let most = largest(field);
    loop {
        let value = match random.below(5) {
            0 => now + 1,
            1 => now.saturating_sub(1),
            2 => least,
            3 => most,
            _ => random.between(least, most),
        };
        if value != now && (least..=most).contains(&value) {
            return value;
        }
    }
}
