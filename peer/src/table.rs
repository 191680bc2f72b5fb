//! The paper's record table with the answers that each field can give, and
//! the order of records: every answer a file can meet. The generator aims at
//! each and the coverage asks whether each was met. The reader doesn't use it;
//! the report takes the names of fields from it.

use std::fmt;

use crate::ending::Ending;

/// What stands in a field.
#[derive(Clone, Copy, Debug, PartialEq, Eq)]
pub enum Class {
    Date,
    FileName,
    Text,
    Identification,
    Duplicate,
    Filler,
    Group,
    OwnAccount,
    Account,
    Sequence,
    Currency,
    BatchIdentification,
    NameCode,
    OrderingName,
    TestCode,
    Type,
    Amount,
    City,
    TotalAmount,
    TotalAccounts,
    Items,
}

/// One field of one record.
#[derive(Clone, Copy, Debug, PartialEq, Eq)]
pub struct Field {
    pub code: &'static str,
    pub column: usize,
    pub width: usize,
    /// As the paper's table has it.
    pub name: &'static str,
    pub class: Class,
    pub answers: &'static [u8],
}

const fn field(
    code: &'static str,
    column: usize,
    width: usize,
    name: &'static str,
    class: Class,
    answers: &'static [u8],
) -> Field {
    Field { code, column, width, name, class, answers }
}

/// 4 is the form, which every field has; 5 stands where some value of a good
/// form is wrong by itself. The rest is said with the field.
pub const FIELDS: [Field; 45] = [
    field("0001A", 6, 6, "creation date", Class::Date, &[4, 5]),
    field("0001A", 12, 8, "file name", Class::FileName, &[4, 5]),
    field("0001A", 20, 5, "sender", Class::Text, &[4]),
    // "another day is 7"
    field("0001A", 25, 4, "identification", Class::Identification, &[4, 5, 7]),
    field("0001A", 29, 1, "duplicate code", Class::Duplicate, &[4, 5]),
    field("0001A", 30, 21, "filler", Class::Filler, &[4]),
    // 7: "the same throughout the file"
    field("0010B", 6, 2, "group", Class::Group, &[4, 5, 7]),
    // 6: also "The ordering account is never a seven-digit one"
    field("0010B", 8, 10, "ordering account", Class::OwnAccount, &[4, 5, 6]),
    // 7: "the number before it plus one"
    field("0010B", 18, 4, "sequence", Class::Sequence, &[4, 5, 7]),
    field("0010B", 22, 3, "currency", Class::Currency, &[4, 5]),
    // "blank for variant B, filled for C"; against the rule is 4
    field("0010B", 25, 16, "batch identification", Class::BatchIdentification, &[4]),
    field("0010B", 41, 10, "filler", Class::Filler, &[4]),
    field("0010C", 6, 2, "group", Class::Group, &[4, 5, 7]),
    field("0010C", 8, 10, "ordering account", Class::OwnAccount, &[4, 5, 6]),
    field("0010C", 18, 4, "sequence", Class::Sequence, &[4, 5, 7]),
    field("0010C", 22, 3, "currency", Class::Currency, &[4, 5]),
    field("0010C", 25, 16, "batch identification", Class::BatchIdentification, &[4]),
    field("0010C", 41, 10, "filler", Class::Filler, &[4]),
    field("0020A", 6, 32, "text", Class::Text, &[4]),
    field("0020A", 38, 13, "filler", Class::Filler, &[4]),
    // 7: "and 1 in group 10"
    field("0030B", 6, 1, "name code", Class::NameCode, &[4, 5, 7]),
    // 5: zeros are taken here, but not a date outside the calendar
    field("0030B", 7, 6, "desired date", Class::Date, &[4, 5]),
    field("0030B", 13, 35, "name", Class::OrderingName, &[4]),
    field("0030B", 48, 1, "test code", Class::TestCode, &[4, 5]),
    field("0030B", 49, 2, "filler", Class::Filler, &[4]),
    // "a type of the other group 7"
    field("0100A", 6, 4, "type", Class::Type, &[4, 5, 7]),
    // its 8 is in LIMITS
    field("0100A", 10, 12, "amount", Class::Amount, &[4, 5]),
    // 7: "Payer (group 00) or beneficiary (group 10) equals the ordering account"
    // 14: "Beneficiary in group 00, payer in group 10"
    field("0100A", 22, 10, "payer", Class::Account, &[4, 5, 6, 7, 14]),
    field("0100A", 32, 10, "beneficiary", Class::Account, &[4, 5, 6, 7, 14]),
    field("0100A", 42, 9, "filler", Class::Filler, &[4]),
    field("0110B", 6, 35, "name", Class::Text, &[4]),
    field("0110B", 41, 10, "filler", Class::Filler, &[4]),
    // 4: "anything from 32 to 126"
    field("0113B", 6, 45, "city", Class::City, &[4]),
    field("0150A", 6, 16, "text", Class::Text, &[4]),
    field("0150A", 22, 29, "filler", Class::Filler, &[4]),
    field("0160A", 6, 32, "text", Class::Text, &[4]),
    field("0160A", 38, 13, "filler", Class::Filler, &[4]),
    field("0170B", 6, 35, "name", Class::Text, &[4]),
    field("0170B", 41, 10, "filler", Class::Filler, &[4]),
    field("0173B", 6, 45, "city", Class::City, &[4]),
    // 5: zero, or "above the batch's maximum total"
    field("9990A", 6, 18, "total amount", Class::TotalAmount, &[4, 5, 9]),
    // no 5: "total accounts may be zero", and ten digits are its maximum
    field("9990A", 24, 10, "total accounts", Class::TotalAccounts, &[4, 9]),
    // 5: zero, or "above 100,000 items"
    field("9990A", 34, 7, "items", Class::Items, &[4, 5, 9]),
    field("9990A", 41, 10, "filler", Class::Filler, &[4]),
    field("9999A", 6, 45, "filler", Class::Filler, &[4]),
];

/// Transactions of an unchecked type told apart further, for "0000, 0003 and
/// 1002 to seven-digit accounts only": `0100A1002-digits-9` is one of type 1002
/// whose other party has nine digits and is refused, `0100A1002-and-32` one
/// with a second fault at column 32, further right, of which one is a 14.
pub const UNCHECKED: [Field; 18] = [
    field("0100A0000-digits-8", 32, 10, "beneficiary", Class::Account, &[6]),
    field("0100A0000-digits-9", 32, 10, "beneficiary", Class::Account, &[6, 14]),
    field("0100A0000-digits-10", 32, 10, "beneficiary", Class::Account, &[6, 14]),
    field("0100A0000-and-32", 10, 12, "amount", Class::Amount, &[4, 5]),
    field("0100A0000-and-32", 22, 10, "payer", Class::Account, &[4, 5, 6, 7]),
    field("0100A0000-and-42", 32, 10, "beneficiary", Class::Account, &[14]),
    field("0100A0003-digits-8", 32, 10, "beneficiary", Class::Account, &[6]),
    field("0100A0003-digits-9", 32, 10, "beneficiary", Class::Account, &[6, 14]),
    field("0100A0003-digits-10", 32, 10, "beneficiary", Class::Account, &[6, 14]),
    field("0100A0003-and-32", 10, 12, "amount", Class::Amount, &[4, 5]),
    field("0100A0003-and-32", 22, 10, "payer", Class::Account, &[4, 5, 6, 7]),
    field("0100A0003-and-42", 32, 10, "beneficiary", Class::Account, &[14]),
    field("0100A1002-digits-8", 22, 10, "payer", Class::Account, &[6]),
    field("0100A1002-digits-9", 22, 10, "payer", Class::Account, &[6, 14]),
    field("0100A1002-digits-10", 22, 10, "payer", Class::Account, &[6, 14]),
    field("0100A1002-and-22", 10, 12, "amount", Class::Amount, &[4, 5]),
    field("0100A1002-and-32", 22, 10, "payer", Class::Account, &[14]),
    field("0100A1002-and-42", 22, 10, "payer", Class::Account, &[14]),
];

/// How a row of [`UNCHECKED`] is told apart.
#[derive(Clone, Copy, Debug, PartialEq, Eq)]
pub enum Detail {
    /// The digits of the other party.
    Digits(usize),
    /// The column of the second fault.
    And(usize),
}

impl Field {
    /// Of a row of [`UNCHECKED`] what its lines begin with, and its detail.
    pub fn unchecked(&self) -> Option<(&'static str, Detail)> {
        let (begins, detail) = self.code.split_once('-')?;
        let (what, number) = detail.split_once('-')?;
        let number = number.parse().ok()?;
        let detail = if what == "and" { Detail::And(number) } else { Detail::Digits(number) };
        Some((begins, detail))
    }
}

/// The name of what begins at this column of a line with this code and
/// variant; none where nothing does. Column 1 is the same of any line.
pub fn field_name(line: &[u8], column: usize) -> Option<&'static str> {
    if column == 1 {
        return Some("code and variant");
    }
    let begins = |field: &&Field| field.column == column && line.starts_with(field.code.as_bytes());
    FIELDS.iter().find(begins).map(|field| field.name)
}

/// Columns of an 8: "item 100,001, column 1; batch total above its maximum,
/// column 10".
const LIMITS: [usize; 2] = [1, 10];

/// Every record with its variant.
pub const CODES: [&str; 14] = [
    "0001A", "0010B", "0010C", "0020A", "0030B", "0100A", "0110B", "0113B", "0150A", "0160A",
    "0170B", "0173B", "9990A", "9999A",
];

/// The place before the first line.
pub const START: &str = "start";

/// After each record but the file trailer those that always fit, so that they
/// are never 3 there. After the file trailer everything is 11.
const ALWAYS_FIT: [(&str, &[&str]); 14] = [
    (START, &["0001A"]),
    ("0001A", &["0010B", "0010C"]),
    ("0010B", &["0020A", "0030B"]),
    ("0010C", &["0020A", "0030B"]),
    // not 0020: there are "0 to 4"
    ("0020A", &["0030B"]),
    ("0030B", &["0100A"]),
    // nothing: 0150 and 0160 come after a missing name in group 10, 0100 and
    // 9990 in both
    ("0100A", &[]),
    ("0110B", &["0100A", "0113B", "0150A", "0160A", "9990A"]),
    ("0113B", &["0100A", "0150A", "0160A", "9990A"]),
    // in group 00 the name may be missing still, but it comes after 0160s
    ("0150A", &["0160A"]),
    // not 0160: "at most four 0160s, or three if it has a 0150"
    ("0160A", &[]),
    ("0170B", &["0100A", "0173B", "9990A"]),
    ("0173B", &["0100A", "9990A"]),
    ("9990A", &["0010B", "0010C", "9999A"]),
];

/// An answer where it is given. `after` is the record before the line, and
/// only said for the answers that don't depend on fields.
#[derive(Clone, Copy, Debug, PartialEq, Eq, PartialOrd, Ord)]
pub struct Met {
    pub answer: u8,
    /// The code and variant of the line, or a code of [`UNCHECKED`]; of an
    /// unknown one its code alone, or [`OTHER`]; no record with 0, 10 and 11.
    /// With 1 which part of its rule, [`SHORT`], [`UNENDED`] or [`OTHER_END`];
    /// the last has one more with the code and variant of the line.
    pub record: &'static str,
    pub column: usize,
    pub after: &'static str,
    /// The end of the first line; unknown where that is no line.
    pub ending: Ending,
}

pub const NONE: &str = "none";
/// A code that no record has.
pub const OTHER: &str = "other";
/// Fewer bytes remain than a line has.
pub const SHORT: &str = "short";
/// Neither end after 50 characters.
pub const UNENDED: &str = "unended";
/// The end that the first line doesn't have.
pub const OTHER_END: &str = "other-end";
/// Any record, or after any record.
pub const ANY: &str = "any";

impl Met {
    pub const fn new(
        ending: Ending,
        answer: u8,
        record: &'static str,
        column: usize,
        after: &'static str,
    ) -> Self {
        Self { answer, record, column, after, ending }
    }

    /// The name of the field refused; none of an answer without a column.
    pub fn field(&self) -> Option<&'static str> {
        field_name(self.record.as_bytes(), self.column)
    }
}

impl fmt::Display for Met {
    fn fmt(&self, f: &mut fmt::Formatter) -> fmt::Result {
        let Met { answer, record, column, after, ending } = self;
        write!(f, "answer={answer} record={record} column={column} after={after} ending={ending}")
    }
}

/// Every answer that some file meets.
pub fn reachable() -> Vec<Met> {
    let first = [(1, SHORT), (1, UNENDED), (10, NONE)];
    let first = first.map(|(answer, record)| Met::new(Ending::Unknown, answer, record, 0, START));
    let mut all = first.to_vec();
    for ending in Ending::BOTH {
        all.extend(of_records(ending));
        all.extend(of_places(ending));
    }
    all.sort_unstable();
    all.dedup();
    all
}

/// The answers that depend on the line, and those of whole files.
fn of_records(ending: Ending) -> Vec<Met> {
    let met = |answer, record, column| Met::new(ending, answer, record, column, ANY);
    let mut all = vec![met(0, NONE, 0), Met::new(ending, 11, NONE, 0, "9999A")];
    all.extend(LIMITS.map(|column| met(8, "0100A", column)));
    for field in FIELDS.into_iter().chain(UNCHECKED) {
        all.extend(field.answers.iter().map(|&answer| met(answer, field.code, field.column)));
    }
    for code in CODES {
        all.extend([met(1, code, 0), met(2, &code[..4], 1)]);
    }
    all.extend([met(1, OTHER, 0), met(2, OTHER, 1)]);
    all
}

/// The answers that depend on what came before the line.
fn of_places(ending: Ending) -> Vec<Met> {
    let mut all = Vec::new();
    for (after, fitting) in ALWAYS_FIT {
        let met = |answer, record, column| Met::new(ending, answer, record, column, after);
        all.push(met(2, ANY, 1));
        let unfit = CODES.into_iter().filter(|code| !fitting.contains(code));
        all.extend(unfit.map(|code| met(3, code, 1)));
        // A first line that has one of the ends is neither broken nor lacking.
        if after != START {
            all.extend([SHORT, UNENDED, OTHER_END].map(|record| met(1, record, 0)));
            all.push(met(10, NONE, 0));
        }
    }
    all
}

#[cfg(test)]
mod tests {
    use super::*;

    /// Names and widths as the paper lists them; a city has no name there but
    /// its record's.
    const PAPER: [(&str, &str); 11] = [
        (
            "0001A",
            "creation date 6, file name 8, sender 5, identification 4, duplicate code 1, filler 21",
        ),
        (
            "0010B 0010C",
            "group 2, ordering account 10, sequence 4, currency 3, batch identification 16, \
             filler 10",
        ),
        ("0020A", "text 32, filler 13"),
        ("0030B", "name code 1, desired date 6, name 35, test code 1, filler 2"),
        ("0100A", "type 4, amount 12, payer 10, beneficiary 10, filler 9"),
        ("0110B 0170B", "name 35, filler 10"),
        ("0113B 0173B", "city 45"),
        ("0150A", "text 16, filler 29"),
        ("0160A", "text 32, filler 13"),
        ("9990A", "total amount 18, total accounts 10, items 7, filler 10"),
        ("9999A", "filler 45"),
    ];

    /// The name at each column, of a record with these fields.
    fn named(fields: &'static str) -> [Option<&'static str>; 60] {
        let mut names = [None; 60];
        names[1] = Some("code and variant");
        let mut column = 6;
        for (name, width) in fields.split(", ").map(|field| field.rsplit_once(' ').unwrap()) {
            names[column] = Some(name);
            column += width.parse::<usize>().unwrap();
        }
        assert_eq!(column, 51);
        names
    }

    #[test]
    fn every_field_of_the_paper_has_its_name() {
        let mut records = 0;
        for (codes, fields) in PAPER {
            for code in codes.split(' ') {
                records += 1;
                for (column, name) in named(fields).into_iter().enumerate() {
                    assert_eq!(field_name(code.as_bytes(), column), name, "{code} {column}");
                }
            }
        }
        assert_eq!(records, CODES.len());
    }

    #[test]
    fn other_lines_have_a_code_and_variant_alone() {
        for line in [&b""[..], b"0001", b"0001B", b"1234A", b"\n\n\n\n\n", &[0; 50], &[255; 50]] {
            assert_eq!(field_name(line, 1), Some("code and variant"));
            assert!((0..60).filter(|&column| column != 1).all(|n| field_name(line, n).is_none()));
            assert_eq!(field_name(line, usize::MAX), None);
        }
    }

    #[test]
    fn the_widths_of_each_record_add_up() {
        for code in CODES {
            let mut next = 6;
            for field in FIELDS.iter().filter(|field| field.code == code) {
                assert_eq!(field.column, next, "{code}");
                next += field.width;
            }
            assert_eq!(next, 51, "{code}");
        }
    }

    #[test]
    fn unchecked_types_have_the_fields_of_any_transaction() {
        for field in UNCHECKED {
            let (begins, detail) = field.unchecked().unwrap();
            assert!(["0100A0000", "0100A0003", "0100A1002"].contains(&begins));
            let other = if begins == "0100A1002" { 22 } else { 32 };
            assert!(match detail {
                Detail::Digits(digits) => (8..=10).contains(&digits) && field.column == other,
                Detail::And(second) => field.column < second && field.column <= other,
            });
            let at_column = |row: &&Field| (row.code, row.column) == ("0100A", field.column);
            let of_any = FIELDS.iter().find(at_column).unwrap();
            assert!(field.answers.iter().all(|answer| of_any.answers.contains(answer)));
            assert_eq!(Field { code: "0100A", answers: of_any.answers, ..field }, *of_any);
        }
        assert!(FIELDS.iter().all(|field| field.unchecked().is_none()));
    }

    #[test]
    fn every_answer_is_there_once() {
        let all = reachable();
        for ending in Ending::BOTH {
            let is = |met: &&Met, answer| (met.ending, met.answer) == (ending, answer);
            let of = |answer| all.iter().filter(|met| is(met, answer)).count();
            assert_eq!([0, 2, 8, 10, 11].map(of), [1, 28, 2, 13, 1]);
            // Three after each of 13 records, and the other end on any line.
            assert_eq!(of(1), 3 * 13 + 15);
            // 14 places and 14 records, less those that always fit.
            assert_eq!(of(3), 14 * 14 - 27);
            // Of fields, and of unchecked types.
            assert_eq!([4, 5, 6, 7].map(of), [45 + 5, 21 + 5, 4 + 11, 9 + 2]);
            assert_eq!([9, 14].map(of), [3, 2 + 10]);
        }
        assert_eq!(all.iter().filter(|met| met.ending == Ending::Unknown).count(), 3);
        assert!(all.iter().all(|met| met.field().is_some() == (met.column > 0)));
    }
}
