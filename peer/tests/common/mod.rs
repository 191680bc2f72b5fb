//! The example, and short ways to ask about lines.

// Each of the tests uses only some of these.
#![allow(dead_code)]

use peer::*;

/// Fills each line to 50 characters and ends it with 13 and 10.
pub fn file(lines: &[&str]) -> Vec<u8> {
    file_ended(lines, "\r\n")
}

/// Fills each line to 50 characters and ends it so.
pub fn file_ended(lines: &[&str], end: &str) -> Vec<u8> {
    lines.iter().flat_map(|text| format!("{text:<50}{end}").into_bytes()).collect()
}

pub fn answer(number: u8, line: u64, column: u8) -> Answer {
    Answer { number, line, column }
}

pub const HEADER: &str = "0001A150309CLIEOP03NACHT15011";
pub const PAYMENTS: &str = "0010B0001234567890001EUR";
pub const DEBITS: &str = "0010B1001234567890001EUR";
pub const PARTY: &str = "0030B1000000                                   P";
pub const END: &str = "9999A";

pub const EXAMPLE: [&str; 9] = [
    HEADER,
    PAYMENTS,
    "0020ASALARIS MAART",
    PARTY,
    "0100A000800000015000001234567890111111110",
    "0100A000300000000255001234567890000001234",
    "0170BJ DE VRIES",
    "9990A00000000000015255003580259220000002",
    END,
];

pub const LISTING: &str = "\
file=CLIEOP03
created=150309
sender=NACHT
identification=1501
duplicate=1
batch=0001
group=00
account=0123456789
items=2
amount=152550
accounts=0358025922
file-items=2
file-amount=152550
answer=0
line=9
column=0
";

pub fn transaction(kind: &str, amount: u64, payer: u64, beneficiary: u64) -> String {
    format!("0100A{kind}{amount:012}{payer:010}{beneficiary:010}")
}

pub fn trailer(amount: u64, accounts: u64, items: u64) -> String {
    format!("9990A{amount:018}{accounts:010}{items:07}")
}

/// The answer on the last of these lines, the ones before being accepted.
pub fn last(lines: &[&str]) -> (u8, u8) {
    let mut state = State::new();
    for number in 0..lines.len() {
        let read = state.line(&file(&lines[number..=number]));
        if number + 1 == lines.len() {
            assert_eq!(read.answer.line, lines.len() as u64);
            assert_eq!(read.record.is_some(), read.answer.number == 0);
            if read.answer.number != 0 {
                assert_eq!((read.state, read.taken), (state, 0));
            }
            return (read.answer.number, read.answer.column);
        }
        assert_eq!(read.answer, answer(0, number as u64 + 1, 0), "{}", lines[number]);
        state = read.state;
    }
    unreachable!()
}

/// The answer on this line in a payments batch after its ordering party.
pub fn in_payments(lines: &[&str]) -> (u8, u8) {
    last(&[&[HEADER, PAYMENTS, PARTY], lines].concat())
}

pub fn in_debits(lines: &[&str]) -> (u8, u8) {
    last(&[&[HEADER, DEBITS, PARTY], lines].concat())
}

/// The two lines before the answer where no batch is closed.
pub const NOTHING_CLOSED: &str = "file-items=0\nfile-amount=0\n";

pub fn listing(bytes: &[u8]) -> String {
    let mut out = Vec::new();
    let given = list(bytes, &mut out).unwrap();
    assert_eq!(given, check(bytes));
    String::from_utf8(out).unwrap()
}
