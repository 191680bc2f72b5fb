//! The shapes that an accepted file can have.

use std::collections::BTreeSet;

use peer::Ending;

/// Shapes of which there is one each.
const SINGLE: [&str; 7] = [
    "city 0113B",
    "city 0173B",
    "sequence 9999",
    "total 000004537802160901",
    "accounts 0000000000",
    "items 0100000",
    "batches 9999",
];

fn item(kind: &str, reference: bool, own: usize) -> String {
    let with = if reference { "with" } else { "without" };
    format!("item {kind} {with} reference, {own} descriptions")
}

fn parties(kind: &str, own: usize, other: usize) -> String {
    format!("item {kind} with an own account of {own} digits and another of {other}")
}

/// An item with the largest seven-digit account as its other party.
fn largest_seven(kind: &str) -> String {
    format!("item {kind} with 9999999")
}

fn batch(header: &str, group: &str, fixed: usize) -> String {
    format!("batch {header} group {group}, {fixed} fixed descriptions")
}

/// A shape with the line end of the file.
fn ended(shape: &str, ending: Ending) -> String {
    format!("{shape} ending={ending}")
}

/// Every shape with both line ends.
pub fn all() -> Vec<String> {
    let with = |ending| shapes().into_iter().map(move |shape| ended(&shape, ending));
    Ending::BOTH.into_iter().flat_map(with).collect()
}

fn shapes() -> Vec<String> {
    let mut all: Vec<String> = SINGLE.map(String::from).to_vec();
    for kind in ["0000", "0003", "0005", "0008", "1001", "1002"] {
        all.extend((0..=4).map(|own| item(kind, false, own)));
        all.extend((0..=3).map(|own| item(kind, true, own)));
        all.push(largest_seven(kind));
        // "0000, 0003 and 1002 to seven-digit accounts only"
        let unchecked = matches!(kind, "0000" | "0003" | "1002");
        for &other in if unchecked { &[7][..] } else { &[7, 9, 10] } {
            all.extend([9, 10].map(|own| parties(kind, own, other)));
        }
    }
    for (header, group) in [("0010B", "00"), ("0010B", "10"), ("0010C", "00"), ("0010C", "10")] {
        all.extend((0..=4).map(|fixed| batch(header, group, fixed)));
    }
    all
}

/// The shapes of this accepted file.
pub fn of(file: &[u8]) -> BTreeSet<String> {
    let text = String::from_utf8_lossy(file);
    let lines: Vec<&str> = text.lines().collect();
    let mut shapes = BTreeSet::new();
    for (number, line) in lines.iter().enumerate() {
        shapes.extend(of_line(line, &lines[number + 1..]));
    }
    let batches = lines.iter().filter(|line| line.starts_with("0010")).count();
    shapes.extend(single("batches", &batches.to_string()));
    let ending = Ending::after_line(file);
    shapes.iter().map(|shape| ended(shape, ending)).collect()
}

fn single(what: &str, value: &str) -> Option<String> {
    let name = format!("{what} {value}");
    SINGLE.contains(&name.as_str()).then_some(name)
}

/// How many of these lines, from the first on, have this code.
fn run(code: &str, lines: &[&str]) -> usize {
    lines.iter().take_while(|line| line.starts_with(code)).count()
}

/// What a line shows, with those that come after it.
fn of_line(line: &str, after: &[&str]) -> Vec<String> {
    match &line[..4] {
        "0010" => {
            let mut shapes = vec![batch(&line[..5], &line[5..7], run("0020", after))];
            shapes.extend(single("sequence", &line[17..21]));
            shapes
        }
        "0100" => {
            let after = &after[run("011", after)..];
            let reference = run("0150", after);
            let mut shapes = of_parties(line);
            shapes.push(item(&line[5..9], reference == 1, run("0160", &after[reference..])));
            shapes
        }
        "0113" | "0173" => single("city", &line[..5]).into_iter().collect(),
        "9990" => [("total", 5..23), ("accounts", 23..33), ("items", 33..40)]
            .into_iter()
            .filter_map(|(what, place)| single(what, &line[place]))
            .collect(),
        _ => vec![],
    }
}

/// What the accounts of an item show.
fn of_parties(line: &str) -> Vec<String> {
    let (kind, payer, beneficiary) = (&line[5..9], &line[21..31], &line[31..41]);
    let debit = kind.starts_with('1');
    let (own, other) = if debit { (beneficiary, payer) } else { (payer, beneficiary) };
    let mut shapes = vec![parties(kind, digits(own), digits(other))];
    if other == "0009999999" {
        shapes.push(largest_seven(kind));
    }
    shapes
}

/// How many digits an account has; fewer than seven count as seven.
fn digits(account: &str) -> usize {
    account.trim_start_matches('0').len().max(7)
}
