//! Contents that are wrong, or nearly wrong, for a class of field.

use peer::table::{Class, Field};

use crate::line::Line;
use crate::random::Random;
use crate::values::{
    any_account, date, eight_digit_account, impossible_date, ordinary_account, seven_digit_account,
    text, LARGEST_AMOUNT, LARGEST_TOTAL, TEN_DIGITS,
};

/// A content for this field; none if its class has nothing special.
pub fn special(random: &mut Random, line: &Line, field: Field) -> Option<String> {
    let now = line.number(field.column, field.width);
    Some(match field.class {
        Class::Text | Class::Filler | Class::City => return None,
        Class::Date if random.one_in(4) => date(random),
        Class::Date if random.one_in(6) => "000000".into(),
        Class::Date => impossible_date(random),
        Class::Identification => identification(random, line),
        Class::OwnAccount | Class::Account => account(random, now),
        Class::BatchIdentification | Class::OrderingName => optional_text(random, field.width),
        Class::Sequence
        | Class::Amount
        | Class::TotalAmount
        | Class::TotalAccounts
        | Class::Items => number(random, field, now),
        _ => random.pick(choices(field.class)).to_string(),
    })
}

/// Contents of the fields that have few good ones.
fn choices(class: Class) -> &'static [&'static str] {
    match class {
        Class::FileName => {
            &["CLIEOP02", "CLIEOP3 ", "clieop03", "CLIEOP04", " CLIEOP0", "CLIEOPO3"]
        }
        Class::Duplicate => &["0", "1", "2", "3", "9", " ", "A"],
        Class::Group => &["00", "10", "01", "11", "0 ", " 0", "1 ", "20", "  ", "O0"],
        Class::Currency => &["NLG", "eur", "EU ", " EU", "USD", "   ", "EUr"],
        Class::NameCode => &["0", "1", "2", "2", "2", "3", "9", " ", "A"],
        Class::TestCode => &["P", "T", "p", "t", " ", "0", "A"],
        _ => &[
            "0000", "0003", "0005", "0008", "1001", "1002", "0001", "0002", "1000", "1003", "0009",
            "000 ", " 000", "    ", "0O00", "9999",
        ],
    }
}

fn identification(random: &mut Random, line: &Line) -> String {
    let day = format!("{:02}", line.number(6, 2));
    match random.below(10) {
        0 => format!("{day}00"),
        1 => format!("{day}99"),
        2 => format!("{day} 1"),
        3 => format!("{day}1 "),
        4 => format!("{day}A1"),
        5 => format!("{:02}01", random.below(32)),
        6 => format!("{:02}00", random.below(32)),
        7 => format!(" {}01", &day[1..]),
        8 => format!("{:04}", random.below(10_000)),
        _ => format!("{}{}01", &day[1..], &day[..1]),
    }
}

fn account(random: &mut Random, now: u64) -> String {
    let account = match random.below(9) {
        0 => 0,
        1 | 2 => seven_digit_account(random),
        3 => eight_digit_account(random),
        4 => 100_000_000,
        5 => ordinary_account(random),
        6 => any_account(random),
        7 => now + random.between(1, 9),
        _ => random.below(TEN_DIGITS),
    };
    let mut digits = format!("{:010}", account % TEN_DIGITS).into_bytes();
    if random.one_in(10) {
        let at = random.index(9);
        digits.swap(at, at + 1);
    }
    digits.into_iter().map(char::from).collect()
}

fn optional_text(random: &mut Random, width: usize) -> String {
    match random.below(4) {
        0 => " ".repeat(width),
        1 => format!(" {}", text(random, width - 1)),
        2 => format!("{}X", " ".repeat(width - 1)),
        _ => text(random, width),
    }
}

/// The most that a number of this class may be.
pub fn largest(field: Field) -> u64 {
    match field.class {
        Class::Amount => LARGEST_AMOUNT,
        Class::TotalAmount => LARGEST_TOTAL,
        Class::Items => 100_000,
        _ => 10_u64.pow(field.width as u32) - 1,
    }
}

fn number(random: &mut Random, field: Field, now: u64) -> String {
    let limit = 10_u64.pow(field.width as u32);
    let value = match random.below(10) {
        0 => 0,
        1 => 1,
        2 => now + 1,
        3 => now.saturating_sub(1),
        4 => largest(field),
        5 => largest(field) + 1,
        6 => limit - 1,
        7 => now + limit / 10,
        8 => random.between(1, largest(field)),
        _ => random.below(limit),
    };
    format!("{:0width$}", value % limit, width = field.width)
}
