//! Accounts, dates, texts and amounts, good ones and impossible dates.

use crate::random::Random;

pub const LARGEST_AMOUNT: u64 = 45_378_021_608;
pub const LARGEST_TOTAL: u64 = 4_537_802_160_901;
pub const TEN_DIGITS: u64 = 10_000_000_000;

pub fn eleven_rest(account: u64) -> u64 {
    let mut rest = account;
    let mut sum = 0;
    for weight in 1..=10 {
        sum += weight * (rest % 10);
        rest /= 10;
    }
    sum % 11
}

/// An account of nine or ten digits, of any rest.
fn long_account(random: &mut Random) -> u64 {
    match random.below(8) {
        0..=3 => random.between(100_000_000, 999_999_999),
        4..=5 => random.between(1_000_000_000, 9_999_999_999),
        6 => random.between(100_000_000, 100_000_200),
        _ => random.between(9_990_000_000, 9_999_999_999),
    }
}

/// An account of nine or ten digits that passes the eleven check.
pub fn ordinary_account(random: &mut Random) -> u64 {
    loop {
        let account = long_account(random);
        if eleven_rest(account) == 0 {
            return account;
        }
    }
}

/// An account of nine or ten digits that fails the eleven check.
pub fn failing_account(random: &mut Random) -> u64 {
    loop {
        let account = long_account(random);
        if eleven_rest(account) != 0 {
            return account;
        }
    }
}

/// Has this good account nine or ten digits?
pub fn is_ordinary(account: u64) -> bool {
    account >= 100_000_000
}

pub fn seven_digit_account(random: &mut Random) -> u64 {
    match random.below(6) {
        0 => 1,
        1 => 9_999_999,
        2 => random.between(1, 99),
        _ => random.between(1, 9_999_999),
    }
}

/// Eight digits; one in eleven of them passes the eleven check.
pub fn eight_digit_account(random: &mut Random) -> u64 {
    match random.below(5) {
        0 => 10_000_000,
        1 => 99_999_999,
        2 => 10_000_003,
        _ => random.between(10_000_000, 99_999_999),
    }
}

pub fn any_account(random: &mut Random) -> u64 {
    if random.coin() {
        ordinary_account(random)
    } else {
        seven_digit_account(random)
    }
}

fn days_in(month: u64, year: u64) -> u64 {
    match month {
        2 if year.is_multiple_of(4) => 29,
        2 => 28,
        4 | 6 | 9 | 11 => 30,
        _ => 31,
    }
}

fn ddmmyy(day: u64, month: u64, year: u64) -> String {
    format!("{day:02}{month:02}{year:02}")
}

pub fn date(random: &mut Random) -> String {
    let (year, month) = match random.below(8) {
        0 => (*random.pick(&[0, 4, 8, 12, 96]), 2),
        1 => (*random.pick(&[0, 99]), random.between(1, 12)),
        _ => (random.below(100), random.between(1, 12)),
    };
    let last = days_in(month, year);
    let day = if random.one_in(4) { last } else { random.between(1, last) };
    ddmmyy(day, month, year)
}

/// A date outside the calendar, and not zeros.
pub fn impossible_date(random: &mut Random) -> String {
    let year = random.below(100);
    match random.below(8) {
        0 => "290209".into(),
        1 => "310409".into(),
        2 => ddmmyy(0, random.between(1, 12), year),
        3 => ddmmyy(random.between(1, 31), 0, year),
        4 => ddmmyy(random.between(32, 99), random.between(1, 12), year),
        5 => ddmmyy(random.between(1, 28), random.between(13, 99), year),
        6 => ddmmyy(30, 2, year),
        _ => {
            let month = *random.pick(&[2, 4, 6, 9, 11]);
            ddmmyy(days_in(month, year) + 1, month, year)
        }
    }
}

/// A filled text: its first character is no space.
pub fn text(random: &mut Random, width: usize) -> String {
    const PLAIN: &[u8] = b"ABCDEFGHIJKLMNOPQRSTUVWXYZabcdefghijklmnopqrstuvwxyz0123456789 .-/";
    let length = match random.below(6) {
        0 => 1,
        1 | 2 => width,
        _ => 1 + random.index(width),
    };
    let wild = random.one_in(3);
    let mut result = String::from(char::from(random.between(33, 126) as u8));
    for _ in 1..length {
        let byte = if wild { random.printable() } else { *random.pick(PLAIN) };
        result.push(char::from(byte));
    }
    format!("{result:width$}")
}

pub fn amount(random: &mut Random) -> u64 {
    match random.below(8) {
        0 => 1,
        1 => LARGEST_AMOUNT,
        2 => random.between(1, LARGEST_AMOUNT),
        // Whole euros.
        3 => 100 * random.between(1, 10_000),
        _ => random.between(1, 1_000_000),
    }
}
