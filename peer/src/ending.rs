//! The two ends that a line can have.

use std::fmt;

/// How the lines of a file end. Its first line fixes which.
#[derive(Clone, Copy, Debug, PartialEq, Eq, PartialOrd, Ord)]
pub enum Ending {
    /// No line has fixed it yet.
    Unknown,
    ThirteenTen,
    /// 10 alone.
    Ten,
}

impl Ending {
    pub const BOTH: [Ending; 2] = [Ending::ThirteenTen, Ending::Ten];

    /// What stands after the 50 characters of the line that `rest` begins
    /// with; unknown where that is neither end.
    pub fn after_line(rest: &[u8]) -> Self {
        match rest.get(50..) {
            Some([13, 10, ..]) => Ending::ThirteenTen,
            Some([10, ..]) => Ending::Ten,
            _ => Ending::Unknown,
        }
    }

    pub const fn bytes(self) -> &'static [u8] {
        match self {
            Ending::Unknown => &[],
            Ending::ThirteenTen => &[13, 10],
            Ending::Ten => &[10],
        }
    }

    /// The bytes of a line that ends so: 50 characters and its end.
    pub const fn line_length(self) -> usize {
        50 + self.bytes().len()
    }

    /// May a line end so where `fixed` was fixed?
    pub fn fits(self, fixed: Ending) -> bool {
        self != Ending::Unknown && (fixed == Ending::Unknown || fixed == self)
    }
}

impl fmt::Display for Ending {
    fn fmt(&self, f: &mut fmt::Formatter) -> fmt::Result {
        f.write_str(match self {
            Ending::Unknown => "unknown",
            Ending::ThirteenTen => "13,10",
            Ending::Ten => "10",
        })
    }
}

#[cfg(test)]
mod tests {
    use super::*;

    #[test]
    fn what_stands_after_50_characters() {
        for (end, expected, length) in [
            (&b"\r\n"[..], Ending::ThirteenTen, 52),
            (b"\r\nx", Ending::ThirteenTen, 52),
            (b"\n", Ending::Ten, 51),
            (b"\nx", Ending::Ten, 51),
            (b"\n\r", Ending::Ten, 51),
            (b"\n\n", Ending::Ten, 51),
            (b"", Ending::Unknown, 50),
            (b"\r", Ending::Unknown, 50),
            (b"\r\r\n", Ending::Unknown, 50),
            (b"\rx", Ending::Unknown, 50),
            (b"x\n", Ending::Unknown, 50),
            (b" \r\n", Ending::Unknown, 50),
        ] {
            for character in [b'x', 13, 10] {
                let found = Ending::after_line(&[&[character; 50], end].concat());
                assert_eq!((found, found.line_length()), (expected, length), "{end:?}");
            }
        }
        for length in 0..50 {
            assert_eq!(Ending::after_line(&vec![10; length]), Ending::Unknown);
        }
    }

    #[test]
    fn the_end_fixed_and_no_other() {
        use Ending::{Ten, ThirteenTen, Unknown};
        for fixed in [Unknown, ThirteenTen, Ten] {
            assert!(!Unknown.fits(fixed));
            assert_eq!(ThirteenTen.fits(fixed), fixed != Ten);
            assert_eq!(Ten.fits(fixed), fixed != ThirteenTen);
        }
    }
}
