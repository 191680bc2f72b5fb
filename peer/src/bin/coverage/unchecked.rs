//! Which rows of the table are told apart for a transaction of an unchecked
//! type.

use peer::eleven_check;
use peer::table::{Detail, Field, UNCHECKED};

/// The codes of the rows that this line is of, which was refused so in a batch
/// with this ordering account.
pub fn codes(here: &[u8], own: &[u8], answer: u8, column: usize) -> Vec<&'static str> {
    let Some(here) = here.first_chunk() else { return vec![] };
    let is_of = |row: &&Field| {
        row.column == column && row.answers.contains(&answer) && fits(row, here, own, answer)
    };
    UNCHECKED.iter().filter(is_of).map(|row| row.code).collect()
}

fn fits(row: &Field, here: &[u8; 50], own: &[u8], answer: u8) -> bool {
    let Some((begins, detail)) = row.unchecked() else { return false };
    here.starts_with(begins.as_bytes())
        && match (detail, answer) {
            (Detail::Digits(digits), _) => {
                account(here, row.column).is_some_and(|other| other.to_string().len() == digits)
            }
            (Detail::And(42), _) => here[41..50] != [b' '; 9],
            (Detail::And(second), 14) => here[second - 1..][..10] != *own,
            (Detail::And(second), _) => {
                account(here, second).is_some_and(|other| other > 99_999_999 && eleven_check(other))
            }
        }
}

/// The account that stands at this column, if digits do.
fn account(here: &[u8; 50], column: usize) -> Option<u64> {
    let field = std::str::from_utf8(&here[column - 1..][..10]).ok()?;
    field.bytes().all(|byte| byte.is_ascii_digit()).then(|| field.parse().ok())?
}

#[cfg(test)]
mod tests {
    use super::*;

    fn of(fields: &str, answer: u8, column: usize) -> Vec<&'static str> {
        codes(format!("0100A{fields:45}").as_bytes(), b"0123456789", answer, column)
    }

    #[test]
    fn digits() {
        for (fields, answer, column, expected) in [
            ("000000000000000101234567890010000000", 6, 32, "0100A0000-digits-8"),
            ("000000000000000101234567890123456788", 6, 32, "0100A0000-digits-9"),
            ("000300000000000101234567890123456789", 14, 32, "0100A0003-digits-9"),
            ("000300000000000101234567891000000001", 14, 32, "0100A0003-digits-10"),
            ("100200000000000110000000000123456789", 6, 22, "0100A1002-digits-10"),
        ] {
            assert_eq!(of(fields, answer, column), [expected]);
        }
        for (fields, answer, column) in [
            ("0003000000000001012345678901234567x9", 4, 32),
            ("000300000000000101234567890000000000", 5, 32),
            ("000500000000000101234567890123456788", 6, 32),
            ("100100000000000110000000000123456789", 6, 22),
            ("000300000000000110000000000000001234", 6, 22),
            ("100200000000000100000012340123456788", 6, 32),
        ] {
            assert!(of(fields, answer, column).is_empty(), "{fields}");
        }
    }

    #[test]
    fn two_faults() {
        let both: &[&str] = &["0100A1002-digits-9", "0100A1002-and-32", "0100A1002-and-42"];
        for (fields, answer, column, expected) in [
            ("000000000000000001234567890123456789", 5, 10, &["0100A0000-and-32"][..]),
            ("000300000000000110000000011000000001", 7, 22, &["0100A0003-and-32"]),
            ("100200000000000001234567890123456789", 5, 10, &["0100A1002-and-22"]),
            ("100200000000000101234567890123456788        x", 14, 22, both),
            ("100200000000000101234567890123456789x", 14, 22, &[both[0], both[2]]),
            ("100200000000000101234567890123456788", 14, 22, &both[..2]),
            ("000000000000000001234567890123456788", 5, 10, &[]),
            ("000000000000000001234567890009999999", 5, 10, &[]),
            ("000500000000000001234567890123456789", 5, 10, &[]),
            ("000000000000000101234567890123456788x", 6, 32, &["0100A0000-digits-9"]),
        ] {
            assert_eq!(of(fields, answer, column), expected, "{fields}");
        }
    }
}
