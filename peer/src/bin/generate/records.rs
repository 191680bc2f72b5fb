//! Good records, one line each.

use crate::line::Line;
use crate::random::Random;
use crate::values::{any_account, date, ordinary_account, text, TEN_DIGITS};

pub fn header(random: &mut Random) -> Line {
    let created = date(random);
    let counter = match random.below(4) {
        0 => 1,
        1 => 99,
        _ => random.between(1, 99),
    };
    let sender = text(random, 5);
    let duplicate = random.between(1, 2);
    Line::new(format!("0001A{created}CLIEOP03{sender}{}{counter:02}{duplicate}", &created[..2]))
}

/// A batch header of variant B or C.
pub fn batch(random: &mut Random, debits: bool, account: u64, sequence: u64) -> Line {
    let group = if debits { "10" } else { "00" };
    let fields = format!("{group}{account:010}{sequence:04}EUR");
    if random.coin() {
        Line::new(format!("0010B{fields}"))
    } else {
        Line::new(format!("0010C{fields}{}", text(random, 16)))
    }
}

pub fn party(random: &mut Random, debits: bool) -> Line {
    let name_code = if debits { 1 } else { random.between(1, 2) };
    let desired = if random.coin() { "000000".into() } else { date(random) };
    let name = if random.coin() { " ".repeat(35) } else { text(random, 35) };
    let test = if random.coin() { 'P' } else { 'T' };
    Line::new(format!("0030B{name_code}{desired}{name}{test}"))
}

/// A record of one text.
pub fn of_text(random: &mut Random, code: &str) -> Line {
    let width = match code {
        "0150A" => 16,
        "0020A" | "0160A" => 32,
        _ => 35,
    };
    Line::new(format!("{code}{}", text(random, width)))
}

pub fn city(random: &mut Random, code: &str) -> Line {
    let mut body = code.as_bytes().to_vec();
    let kind = random.below(4);
    for _ in 0..45 {
        body.push(match kind {
            0 => b' ',
            1 => random.printable(),
            2 if random.coin() => b' ',
            _ => random.between(65, 90) as u8,
        });
    }
    Line::new(body)
}

pub fn transaction(kind: &str, amount: u64, payer: u64, beneficiary: u64) -> Line {
    Line::new(format!("0100A{kind}{amount:012}{payer:010}{beneficiary:010}"))
}

pub fn trailer(total: u64, accounts: u64, items: u64) -> Line {
    Line::new(format!("9990A{total:018}{:010}{items:07}", accounts % TEN_DIGITS))
}

/// A well-formed record of this code, for a place where it may not belong.
pub fn stray(random: &mut Random, code: &str) -> Line {
    let debits = random.coin();
    match code {
        "0001A" => header(random),
        "0010B" | "0010C" => stray_batch(random, code, debits),
        "0030B" => party(random, debits),
        "0100A" => {
            let kind = *random.pick(&["0000", "0003", "0005", "0008", "1001", "1002"]);
            transaction(kind, 100, ordinary_account(random), any_account(random))
        }
        "0113B" | "0173B" => city(random, code),
        "9990A" => trailer(100, 200, 1),
        "9999A" => Line::new("9999A"),
        _ => of_text(random, code),
    }
}

fn stray_batch(random: &mut Random, code: &str, debits: bool) -> Line {
    loop {
        let account = ordinary_account(random);
        let sequence = random.between(1, 9_999);
        let line = batch(random, debits, account, sequence);
        if line.is(code) {
            return line;
        }
    }
}
