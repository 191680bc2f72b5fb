//! The fields of a line: cutting a line up from the left, the forms a field
//! can have, and the values that don't depend on what came before.

use crate::answer::number;

/// A refusal inside a line: the number, and the first column of the field.
#[derive(Clone, Copy, Debug, PartialEq, Eq)]
pub(crate) struct Fault {
    pub number: u8,
    pub column: u8,
}

/// The part of a line that hasn't been cut into fields yet.
pub(crate) struct Fields<'a> {
    rest: &'a [u8],
    column: u8,
}

/// One field of `N` characters and the column it begins in.
#[derive(Clone, Copy)]
pub(crate) struct Field<'a, const N: usize> {
    bytes: &'a [u8; N],
    column: u8,
}

impl<'a> Fields<'a> {
    /// The fields after code and variant, so from column 6.
    pub fn after_code(line: &'a [u8; 50]) -> Self {
        Self { rest: &line[5..], column: 6 }
    }

    /// Cuts off the next `N` characters.
    pub fn next<const N: usize>(&mut self) -> Field<'a, N> {
        let (bytes, rest) =
            self.rest.split_first_chunk::<N>().expect("the widths of a record add up to 50");
        let field = Field { bytes, column: self.column };
        self.rest = rest;
        self.column += N as u8;
        field
    }

    /// Takes the next `N` characters as the filler that ends the line.
    pub fn filler<const N: usize>(&mut self) -> Result<(), Fault> {
        let filler = self.next::<N>();
        debug_assert!(self.rest.is_empty());
        filler.blank().map(|_| ())
    }
}

impl<const N: usize> Field<'_, N> {
    pub fn fault(&self, number: u8) -> Fault {
        Fault { number, column: self.column }
    }

    fn is_blank(&self) -> bool {
        self.bytes.iter().all(|&byte| byte == b' ')
    }

    /// A numeric field: all digits.
    pub fn digits(&self) -> Result<u64, Fault> {
        let mut value = 0;
        for &byte in self.bytes {
            if !byte.is_ascii_digit() {
                return Err(self.fault(number::FORM));
            }
            value = value * 10 + u64::from(byte - b'0');
        }
        Ok(value)
    }

    /// Any characters from 32 to 126.
    pub fn printable(&self) -> Result<[u8; N], Fault> {
        if self.bytes.iter().all(|&byte| is_printable(byte)) {
            Ok(*self.bytes)
        } else {
            Err(self.fault(number::FORM))
        }
    }

    /// An alphanumeric field that has to be filled.
    pub fn filled(&self) -> Result<[u8; N], Fault> {
        // A blank field begins with a space too, so this covers both rules.
        if self.bytes[0] == b' ' {
            return Err(self.fault(number::FORM));
        }
        self.printable()
    }

    /// An alphanumeric field that may be blank.
    pub fn optional(&self) -> Result<[u8; N], Fault> {
        if self.is_blank() {
            Ok(*self.bytes)
        } else {
            self.filled()
        }
    }

    /// A field of spaces.
    pub fn blank(&self) -> Result<[u8; N], Fault> {
        if self.is_blank() {
            Ok(*self.bytes)
        } else {
            Err(self.fault(number::FORM))
        }
    }

    /// An alphanumeric field with a single permitted content.
    pub fn constant(&self, content: &[u8; N]) -> Result<(), Fault> {
        if self.filled()? == *content {
            Ok(())
        } else {
            Err(self.fault(number::VALUE))
        }
    }

    /// Refuses with `number` unless `holds`.
    pub fn require(&self, holds: bool, number: u8) -> Result<(), Fault> {
        if holds {
            Ok(())
        } else {
            Err(self.fault(number))
        }
    }
}

impl Field<'_, 6> {
    /// A date that has to be filled.
    pub fn date(&self) -> Result<u32, Fault> {
        let date = self.digits()? as u32;
        self.require(date_exists(date), number::VALUE)?;
        Ok(date)
    }

    /// A date that may be zeros.
    pub fn optional_date(&self) -> Result<u32, Fault> {
        match self.digits()? {
            0 => Ok(0),
            _ => self.date(),
        }
    }
}

impl Field<'_, 10> {
    /// The account of a payer or beneficiary.
    pub fn account(&self) -> Result<u64, Fault> {
        let account = self.digits()?;
        match account {
            0 => Err(self.fault(number::VALUE)),
            _ if is_seven_digits(account) => Ok(account),
            10_000_000..=99_999_999 => Err(self.fault(number::ACCOUNT)),
            _ if eleven_check(account) => Ok(account),
            _ => Err(self.fault(number::ACCOUNT)),
        }
    }

    /// The account of an ordering party: never one of seven digits.
    pub fn ordering_account(&self) -> Result<u64, Fault> {
        let account = self.account()?;
        self.require(!is_seven_digits(account), number::ACCOUNT)?;
        Ok(account)
    }
}

/// May this byte stand in an alphanumeric field?
pub(crate) fn is_printable(byte: u8) -> bool {
    (32..=126).contains(&byte)
}

/// "1 to 9,999,999 is a seven-digit account", however few of them it has.
pub(crate) fn is_seven_digits(account: u64) -> bool {
    (1..=9_999_999).contains(&account)
}

/// The eleven check: as ten digits with weights 10 down to 1, the weighted
/// sum divides by 11.
pub fn eleven_check(account: u64) -> bool {
    let mut rest = account;
    let mut sum = 0_u64;
    for weight in 1..=10 {
        sum += weight * (rest % 10);
        rest /= 10;
    }
    sum.is_multiple_of(11)
}

/// Does this number, read as ddmmyy with year 20yy, exist in the calendar?
pub fn date_exists(ddmmyy: u32) -> bool {
    let day = ddmmyy / 10_000;
    let month = ddmmyy / 100 % 100;
    // 2000 was a leap year, so of the years 20yy every fourth one is.
    let leap = (ddmmyy % 100).is_multiple_of(4);
    let days = match month {
        1 | 3 | 5 | 7 | 8 | 10 | 12 => 31,
        4 | 6 | 9 | 11 => 30,
        2 if leap => 29,
        2 => 28,
        _ => 0,
    };
    (1..=days).contains(&day)
}

#[cfg(test)]
mod tests {
    use super::*;

    fn field<const N: usize>(bytes: &[u8; N]) -> Field<'_, N> {
        Field { bytes, column: 6 }
    }

    #[test]
    fn forms() {
        let form = Fault { number: 4, column: 6 };
        assert_eq!(field(b"0120").digits(), Ok(120));
        assert_eq!(field(b"01 0").digits(), Err(form));
        assert_eq!(field(b"01/0").digits(), Err(form));
        assert_eq!(field(b"01:0").digits(), Err(form));
        assert_eq!(field(b"A ~").filled(), Ok(*b"A ~"));
        assert_eq!(field(b" A~").filled(), Err(form));
        assert_eq!(field(b"   ").filled(), Err(form));
        assert_eq!(field(b"A\x7f ").filled(), Err(form));
        assert_eq!(field(b"A\x1f ").filled(), Err(form));
        assert_eq!(field(b"   ").optional(), Ok(*b"   "));
        assert_eq!(field(b" A ").optional(), Err(form));
        assert_eq!(field(b"  \0").optional(), Err(form));
        assert_eq!(field(b"  A").blank(), Err(form));
        assert_eq!(field(b" A ").printable(), Ok(*b" A "));
        assert_eq!(field(b" \xff ").printable(), Err(form));
    }

    #[test]
    fn form_comes_before_value() {
        assert_eq!(field(b"EUR").constant(b"EUR"), Ok(()));
        assert_eq!(field(b"eur").constant(b"EUR").unwrap_err().number, 5);
        assert_eq!(field(b" UR").constant(b"EUR").unwrap_err().number, 4);
        assert_eq!(field(b"EU\n").constant(b"EUR").unwrap_err().number, 4);
        assert_eq!(field(b"32013 ").date().unwrap_err().number, 4);
        assert_eq!(field(b"000000").date().unwrap_err().number, 5);
        assert_eq!(field(b"000000").optional_date(), Ok(0));
        assert_eq!(field(b"000001").optional_date().unwrap_err().number, 5);
    }

    #[test]
    fn accounts() {
        let number = |bytes| field::<10>(bytes).account().map_err(|fault| fault.number);
        assert_eq!(number(b"0000000000"), Err(5));
        assert_eq!(number(b"0000000001"), Ok(1));
        assert_eq!(number(b"0009999999"), Ok(9_999_999));
        assert_eq!(number(b"0010000000"), Err(6));
        assert_eq!(number(b"0010000003"), Err(6));
        assert_eq!(number(b"0099999999"), Err(6));
        assert_eq!(number(b"0123456789"), Ok(123_456_789));
        assert_eq!(number(b"0123456788"), Err(6));
        for (account, expected) in [(0, false), (1, true), (9_999_999, true), (10_000_000, false)] {
            assert_eq!(is_seven_digits(account), expected);
        }
        assert_eq!(field(b"0009999999").ordering_account().unwrap_err().number, 6);
        assert_eq!(field(b"0000000000").ordering_account().unwrap_err().number, 5);
    }

    #[test]
    fn columns() {
        let mut fields = Fields::after_code(b"0030B1000000                                   P  ");
        assert_eq!(fields.next::<1>().column, 6);
        assert_eq!(fields.next::<6>().column, 7);
        assert_eq!(fields.next::<35>().column, 13);
        let test = fields.next::<1>();
        assert_eq!((test.column, test.bytes), (48, b"P"));
        assert_eq!(fields.filler::<2>(), Ok(()));
    }
}
