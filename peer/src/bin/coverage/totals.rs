//! Items and cents of the batches that are closed: what they are by a file's
//! own lines, and the shapes in which they can be met.

use peer::table::{reachable, CODES, OTHER};
use peer::{Batch, Ending, Totals};

use crate::lines::Lines;

/// How many batches are closed.
const BATCHES: [&str; 3] = ["no batch", "one batch", "several batches"];

/// Of the batch that is not closed.
const ITEMS: [&str; 2] = ["no items", "items"];

/// What the totals of a file can be, and whether they are.
type Size = (&'static str, fn(&Totals) -> bool);

const ABOVE_32_BITS: Size = ("more than 32 bits", |totals| totals.amount > u32::MAX.into());
const ABOVE_A_BATCH: Size =
    ("more than a batch can have", |totals| totals.amount > Batch::MAX_TOTAL);

const ACCEPTED: [Size; 7] = [
    ("one item", |totals| totals.items == 1),
    ("more items than a batch can have", |totals| totals.items > Batch::MAX_ITEMS.into()),
    ("less than a euro", |totals| totals.amount < 100),
    ("cents below ten", |totals| totals.amount % 100 < 10),
    ("whole euros", |totals| totals.amount.is_multiple_of(100)),
    ABOVE_32_BITS,
    ABOVE_A_BATCH,
];

const REFUSED: [Size; 2] = [ABOVE_32_BITS, ABOVE_A_BATCH];

fn answered(answer: u8, batches: &str) -> String {
    format!("answer {answer} with {batches} closed")
}

fn refused_among(items: &str, batches: &str) -> String {
    format!("refused after {items} of a batch, with {batches} closed")
}

fn refused_on(record: &str) -> String {
    format!("refused on {record} with a batch closed")
}

fn ends_after(after_trailer: bool) -> String {
    format!("ends {} a later batch", if after_trailer { "before" } else { "in" })
}

fn accepted_of(size: &str) -> String {
    format!("accepted with {size}")
}

fn refused_of(size: &str) -> String {
    format!("refused with {size} closed")
}

/// A shape with the line end of the file.
fn ended(shape: String, ending: Ending) -> String {
    format!("totals: {shape}, ending={ending}")
}

/// Every shape with both line ends, and those of a first line that has neither.
pub fn all() -> Vec<String> {
    let with = |ending| shapes().into_iter().map(move |shape| ended(shape, ending));
    let unended = [1, 10].map(|answer| ended(answered(answer, BATCHES[0]), Ending::Unknown));
    Ending::BOTH.into_iter().flat_map(with).chain(unended).collect()
}

fn shapes() -> Vec<String> {
    let mut all = Vec::new();
    let mut answers: Vec<u8> = reachable().iter().map(|met| met.answer).collect();
    answers.dedup();
    for answer in answers {
        // With these two the file trailer was read.
        let fewest = usize::from(matches!(answer, 0 | 11));
        all.extend(BATCHES[fewest..].iter().map(|batches| answered(answer, batches)));
    }
    for batches in BATCHES {
        all.extend(ITEMS.map(|items| refused_among(items, batches)));
    }
    all.extend(CODES.into_iter().chain([OTHER]).map(refused_on));
    all.extend([true, false].map(ends_after));
    all.extend(ACCEPTED.map(|(size, _)| accepted_of(size)));
    all.extend(REFUSED.map(|(size, _)| refused_of(size)));
    all
}

/// What the accepted lines of a file close.
#[derive(Default)]
pub struct Closed {
    pub totals: Totals,
    batches: usize,
    /// Of the batch that is not closed.
    open: Totals,
}

impl Closed {
    /// By the lines of a file with this answer: all of them, or those before
    /// the line refused.
    pub fn of(lines: &Lines, answer: u8, line: usize) -> Self {
        let accepted = if answer == 0 { line } else { line.saturating_sub(1) };
        let mut closed = Self::default();
        lines.first(accepted).for_each(|line| closed.count(line));
        closed
    }

    fn count(&mut self, line: &[u8]) {
        if line.starts_with(b"0100A") {
            self.open.items += 1;
            self.open.amount += amount(line);
        } else if line.starts_with(b"9990A") {
            self.totals.items += self.open.items;
            self.totals.amount += self.open.amount;
            self.batches += 1;
            self.open = Totals::default();
        }
    }

    /// The shapes of that file.
    pub fn shapes(&self, lines: &Lines, answer: u8, line: usize) -> Vec<String> {
        let batches = BATCHES[self.batches.min(2)];
        let mut shapes = vec![answered(answer, batches)];
        if answer == 0 {
            shapes.extend(self.sizes(&ACCEPTED).into_iter().map(accepted_of));
        } else if lines.ending != Ending::Unknown {
            shapes.push(refused_among(ITEMS[usize::from(self.open.items > 0)], batches));
            shapes.extend(self.sizes(&REFUSED).into_iter().map(refused_of));
            if self.batches > 0 {
                shapes.extend(of_place(lines, answer, line));
            }
        }
        shapes.into_iter().map(|shape| ended(shape, lines.ending)).collect()
    }

    /// Those of these sizes that the totals have.
    fn sizes(&self, sizes: &[Size]) -> Vec<&'static str> {
        sizes.iter().filter(|(_, has)| has(&self.totals)).map(|&(size, _)| size).collect()
    }
}

/// Where a file is refused that has a closed batch.
fn of_place(lines: &Lines, answer: u8, line: usize) -> Option<String> {
    match answer {
        10 => Some(ends_after(lines.record_before(line) == "9990A")),
        11 => None,
        _ => Some(refused_on(lines.record(line))),
    }
}

/// The cents of an accepted transaction.
fn amount(line: &[u8]) -> u64 {
    let digits = line.get(9..21).unwrap_or_default();
    digits.iter().fold(0, |value, digit| 10 * value + u64::from(digit.wrapping_sub(b'0')))
}

#[cfg(test)]
mod tests {
    use super::*;

    /// Two batches, of 5 cents and of 100 and 7.
    const FILE: [&str; 11] = [
        "0001A150309CLIEOP03NACHT15011",
        "0010B0001234567890001EUR",
        "0030B1000000                                   P",
        "0100A000500000000000501234567890000001234",
        "9990A00000000000000000501234580230000001",
        "0010B0001234567890002EUR",
        "0030B1000000                                   P",
        "0100A000500000000010001234567890000001234",
        "0100A000500000000000701234567890000001234",
        "9990A00000000000000010702469160460000002",
        "9999A",
    ];

    fn file(end: &str) -> Vec<u8> {
        FILE.iter().flat_map(|text| format!("{text:50}{end}").into_bytes()).collect()
    }

    /// Items, cents, batches, and items of the next.
    fn of(file: &[u8], answer: u8, line: usize) -> (u64, u64, usize, u64) {
        let Closed { totals, batches, open } = Closed::of(&Lines::of(file), answer, line);
        (totals.items, totals.amount, batches, open.items)
    }

    #[test]
    fn by_lines() {
        for end in ["\r\n", "\n"] {
            let file = file(end);
            assert_eq!(of(&file, 0, 11), (3, 112, 2, 0));
            assert_eq!(of(&file, 11, 12), (3, 112, 2, 0));
            // Refused on each of the lines.
            for (line, expected) in [
                (1, (0, 0, 0, 0)),
                (4, (0, 0, 0, 0)),
                (5, (0, 0, 0, 1)),
                (6, (1, 5, 1, 0)),
                (8, (1, 5, 1, 0)),
                (9, (1, 5, 1, 1)),
                (10, (1, 5, 1, 2)),
                (11, (3, 112, 2, 0)),
            ] {
                assert_eq!(of(&file, 4, line), expected, "{line}");
            }
        }
        assert_eq!(of(b"", 10, 1), (0, 0, 0, 0));
        assert_eq!(of(&[b'x'; 60], 1, 1), (0, 0, 0, 0));
    }

    #[test]
    fn shapes_of_files() {
        let of = |file: &[u8], answer, line| {
            let lines = Lines::of(file);
            let shapes = Closed::of(&lines, answer, line).shapes(&lines, answer, line);
            let known = all();
            assert!(shapes.iter().all(|shape| known.contains(shape)), "{shapes:?}");
            shapes
        };
        let file = file("\n");
        let ten = |shapes: &[&str]| -> Vec<String> {
            shapes.iter().map(|shape| format!("totals: {shape}, ending=10")).collect()
        };
        assert_eq!(of(&file, 0, 11), ten(&["answer 0 with several batches closed"]));
        assert_eq!(
            of(&file, 9, 10),
            ten(&[
                "answer 9 with one batch closed",
                "refused after items of a batch, with one batch closed",
                "refused on 9990A with a batch closed"
            ])
        );
        let refused = "refused after no items of a batch, with one batch closed";
        let answer = "answer 10 with one batch closed";
        assert_eq!(
            of(&file[..5 * 51], 10, 6),
            ten(&[answer, refused, "ends before a later batch"])
        );
        assert_eq!(of(&file[..6 * 51], 10, 7), ten(&[answer, refused, "ends in a later batch"]));
        assert_eq!(of(b"", 10, 1), ["totals: answer 10 with no batch closed, ending=unknown"]);
    }

    #[test]
    fn sizes() {
        let of = |items, amount| {
            let totals = Totals { items, amount };
            Closed { totals, ..Closed::default() }.sizes(&ACCEPTED)
        };
        assert_eq!(of(1, 5), ["one item", "less than a euro", "cents below ten"]);
        assert_eq!(of(2, 99), ["less than a euro"]);
        assert_eq!(of(100_000, 100), ["cents below ten", "whole euros"]);
        assert_eq!(of(100_001, 4_294_967_295), ["more items than a batch can have"]);
        assert_eq!(of(2, 4_294_967_296), ["more than 32 bits"]);
        let largest = ["cents below ten", "more than 32 bits"];
        assert_eq!(of(2, 4_537_802_160_901), largest);
        assert_eq!(of(2, 4_537_802_160_902)[2..], ["more than a batch can have"]);
    }

    #[test]
    fn every_shape_is_there_once() {
        let mut names = all();
        // 37 answers, 6 and 15 and 2 places, 7 and 2 sizes.
        assert_eq!(names.len(), 2 * 69 + 2);
        names.sort_unstable();
        names.dedup();
        assert_eq!(names.len(), 2 * 69 + 2);
    }
}
