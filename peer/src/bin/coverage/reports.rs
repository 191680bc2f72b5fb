//! What `check` printed, read back.

use peer::Totals;

/// Ways in which a line can be broken.
pub const WAYS: [&str; 5] = [
    "the file ends in it",
    "shorter than 50",
    "longer than 50",
    "byte 10 alone after 13 and 10",
    "13 and 10 after byte 10 alone",
];

/// What was printed of one file.
pub struct Report {
    pub answer: u8,
    pub line: usize,
    pub column: usize,
    /// The name of the field, if there is a column.
    pub field: Option<String>,
    /// Which of [`WAYS`], of a broken line.
    pub way: Option<&'static str>,
    /// Of an accepted file.
    pub totals: Option<Totals>,
}

impl Report {
    /// Takes what was printed of the file with this name off the front of
    /// these lines; none if it isn't as it should be.
    pub fn take<'a>(name: &str, lines: &mut impl Iterator<Item = &'a str>) -> Option<Self> {
        let said = lines.next()?.strip_prefix(name)?.strip_prefix(": ")?;
        if let Some(counts) = said.strip_prefix("accepted, ") {
            return Self::accepted(counts);
        }
        let report = Self::refusal(said)?;
        if report.answer != 10 {
            lines.next()?.strip_prefix("  ")?;
        }
        if report.column > 0 && lines.next()? != format!("  {:>1$}", '^', report.column) {
            return None;
        }
        Some(report)
    }

    /// `L lines, N items, EUROS.CENTS`, or `1 item`.
    fn accepted(counts: &str) -> Option<Self> {
        let (lines, totals) = counts.split_once(" lines, ")?;
        let (items, amount) = totals.split_once(", ")?;
        let items = match items {
            "1 item" => 1,
            _ => number(items.strip_suffix(" items")?).filter(|&items| items != 1)?,
        };
        let (euros, cents) = amount.split_once('.')?;
        let two = cents.len() == 2 && cents.bytes().all(|byte| byte.is_ascii_digit());
        let cents: u64 = cents.parse().ok().filter(|_| two)?;
        let totals = Some(Totals { items, amount: 100 * number(euros)? + cents });
        let line = number(lines)? as usize;
        Some(Self { answer: 0, line, column: 0, field: None, way: None, totals })
    }

    /// `line L, column C, FIELD: WORDS (answer A)`, or without column and field.
    fn refusal(said: &str) -> Option<Self> {
        let (place, words) = said.split_once(": ")?;
        let (words, answer) = words.strip_suffix(')')?.rsplit_once(" (answer ")?;
        let mut place = place.splitn(3, ", ");
        let line = place.next()?.strip_prefix("line ")?.parse().ok()?;
        let column = match place.next() {
            None => 0,
            Some(column) => column.strip_prefix("column ")?.parse().ok()?,
        };
        let field = place.next().map(String::from);
        let answer = answer.parse().ok()?;
        Some(Self { answer, line, column, field, way: way(words), totals: None })
    }
}

/// A number without leading zeros.
pub fn number(text: &str) -> Option<u64> {
    text.parse().ok().filter(|number: &u64| number.to_string() == text)
}

fn way(words: &str) -> Option<&'static str> {
    let how = words.strip_prefix("the line is broken: ")?;
    match how {
        "it ends with byte 10 alone, the first line with 13 and 10" => return Some(WAYS[3]),
        "it ends with 13 and 10, the first line with byte 10 alone" => return Some(WAYS[4]),
        _ if how.starts_with("the file ends after byte ") => return Some(WAYS[0]),
        _ => {}
    }
    let length: usize =
        how.strip_prefix("its length is ")?.strip_suffix(", not 50")?.parse().ok()?;
    Some(if length < 50 { WAYS[1] } else { WAYS[2] })
}

#[cfg(test)]
mod tests {
    use super::*;

    #[test]
    fn what_the_second_program_prints() {
        let line = |text: &str, end: &str| format!("{text:50}{end}").into_bytes();
        let good = "0001A150309CLIEOP03NACHT15011";
        let header = line("0001A150309CLIEOP03NACHT14011", "\r\n");
        let of = |file: &[u8], expected| {
            let mut out = Vec::new();
            peer::report(b"it", file, &mut out).unwrap();
            let printed = String::from_utf8(out).unwrap();
            let mut lines = printed.lines();
            let Report { answer, line, column, field, way, totals } =
                Report::take("it", &mut lines).unwrap();
            assert_eq!((answer, line, column, field.as_deref(), way), expected, "{printed}");
            assert_eq!(totals, None);
            assert_eq!(lines.next(), None);
        };
        of(b"", (10, 1, 0, None, None));
        of(&header, (7, 1, 25, Some("identification"), None));
        of(&header[2..], (1, 1, 0, None, Some(WAYS[1])));
        of(&header[..20], (1, 1, 0, None, Some(WAYS[0])));
        of(&[b"0", &header[..]].concat(), (1, 1, 0, None, Some(WAYS[2])));
        for (first, second, way) in [("\r\n", "\n", WAYS[3]), ("\n", "\r\n", WAYS[4])] {
            let file = [line(good, first), line(good, second)].concat();
            of(&file, (1, 2, 0, None, Some(way)));
        }
    }

    #[test]
    fn totals_of_accepted_files() {
        for (printed, line, items, amount) in [
            ("it: accepted, 9 lines, 2 items, 1525.50", 9, 2, 152_550),
            ("it: accepted, 6 lines, 1 item, 0.05", 6, 1, 5),
            ("it: accepted, 7 lines, 21 items, 100.00", 7, 21, 10_000),
        ] {
            let report = Report::take("it", &mut printed.lines()).unwrap();
            assert_eq!((report.answer, report.line, report.column), (0, line, 0));
            assert_eq!(report.totals, Some(Totals { items, amount }));
        }
        for counts in [
            "9 lines",
            "9 lines, 2 items",
            "9 lines, 2 item, 1525.50",
            "9 lines, 1 items, 1525.50",
            "9 lines, 02 items, 1525.50",
            "9 lines, 2 items, 01525.50",
            "9 lines, 2 items, 1525.5",
            "9 lines, 2 items, 1525.+5",
            "9 lines, 2 items, 1.525.50",
            "9 lines, 2 items, 1,525.50",
            "9 lines, 2 items, .50",
            "9 lines, 2 items, 152550",
            "9 lines, 2 items, 1525.500",
        ] {
            let printed = format!("it: accepted, {counts}");
            assert!(Report::take("it", &mut printed.lines()).is_none(), "{printed}");
        }
    }

    #[test]
    fn what_it_does_not_print() {
        for printed in [
            "",
            "other: accepted, 9 lines, 2 items, 1525.50",
            "it: accepted",
            "it: line 1: words",
            "it: line 1: words (answer 11)",
            "it: line 1, column 25, name: words (answer 4)\n  x\n  ^",
        ] {
            assert!(Report::take("it", &mut printed.lines()).is_none(), "{printed}");
        }
    }
}
