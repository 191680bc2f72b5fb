//! Month-end files: batches of payments, every item of the same number of
//! lines, written as a stream so that a file may be larger than the memory.

#![forbid(unsafe_code)]

use std::io::{self, Write};

const ORDERING_ACCOUNT: u64 = 123_456_789;
const SALARY_ACCOUNT: u64 = 111_111_110;
/// Of seven digits, for the types that are unchecked.
const UNCHECKED_ACCOUNT: u64 = 1_234_567;
const TEN_DIGITS: u64 = 10_000_000_000;

/// The file that [`Month::write`] writes.
pub struct Month {
    pub batches: u64,
    pub items: u64,
    /// 1: a salary; 2: an unchecked salary and its name; 7: an unchecked
    /// creditor with reference, three descriptions, name and city.
    pub lines: u64,
    /// How each line ends: [`THIRTEEN_TEN`] or [`TEN`].
    pub end: &'static str,
}

pub const THIRTEEN_TEN: &str = "\r\n";
pub const TEN: &str = "\n";

impl Month {
    pub fn write(&self, out: &mut impl Write) -> io::Result<()> {
        self.line(out, "0001A310309CLIEOP03NACHT31011")?;
        for batch in 1..=self.batches {
            self.batch(out, batch)?;
        }
        self.line(out, "9999A")
    }

    /// How many lines the file has.
    pub fn length(&self) -> u64 {
        self.batches * (self.items * self.lines + 4) + 2
    }

    fn batch(&self, out: &mut impl Write, sequence: u64) -> io::Result<()> {
        self.line(out, &format!("0010B00{ORDERING_ACCOUNT:010}{sequence:04}EUR"))?;
        self.line(out, "0020ASALARIS MAART")?;
        self.line(out, &format!("0030B1000000{:35}P", "KANTOOR NOORD"))?;
        let mut total = 0;
        for item in 0..self.items {
            let amount = 100_000 + item * 7 % 900_000;
            total += amount;
            self.item(out, amount, item)?;
        }
        let accounts = self.items * (ORDERING_ACCOUNT + self.type_and_beneficiary().1) % TEN_DIGITS;
        self.line(out, &format!("9990A{total:018}{accounts:010}{:07}", self.items))
    }

    /// Those of its items.
    fn type_and_beneficiary(&self) -> (&'static str, u64) {
        match self.lines {
            1 => ("0008", SALARY_ACCOUNT),
            2 => ("0003", UNCHECKED_ACCOUNT),
            _ => ("0000", UNCHECKED_ACCOUNT),
        }
    }

    fn item(&self, out: &mut impl Write, amount: u64, item: u64) -> io::Result<()> {
        let (kind, account) = self.type_and_beneficiary();
        self.line(out, &format!("0100A{kind}{amount:012}{ORDERING_ACCOUNT:010}{account:010}"))?;
        if self.lines == 7 {
            self.line(out, &format!("0150A{item:016}"))?;
            self.line(out, "0160AFACTUUR VAN DE MAAND")?;
            self.line(out, "0160ABEDRAG VOLGENS OPGAVE")?;
            self.line(out, "0160AMET DANK")?;
        }
        if self.lines > 1 {
            self.line(out, "0170BJ DE VRIES EN ZONEN")?;
        }
        if self.lines == 7 {
            self.line(out, "0173BGRONINGEN")?;
        }
        Ok(())
    }

    fn line(&self, out: &mut impl Write, text: &str) -> io::Result<()> {
        write!(out, "{text:50}{}", self.end)
    }
}
