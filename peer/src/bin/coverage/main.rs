//! `coverage list FILE.. <ANSWERS` counts which answers of the table these
//! files met, which shapes the accepted ones have, and with which totals of
//! closed batches they came; `coverage item FILE.. <ANSWERS` the answers of
//! items asked for; `coverage check FILE.. <ANSWERS` the answers told in words,
//! each with the field it named. ANSWERS is what a program printed about the
//! files, in their order; totals that are not those of a file's own lines are
//! an error. `coverage report <COUNTS` adds such counts up, prints them all,
//! and fails if an answer or shape was met by no file, or one was met that
//! isn't known.

#![forbid(unsafe_code)]

mod lines;
mod reports;
mod shapes;
mod totals;
mod unchecked;

use std::collections::BTreeMap;
use std::io::{self, BufRead, Read};
use std::process::ExitCode;

use peer::table::{reachable, Met, ANY, CODES, NONE, OTHER, OTHER_END, SHORT, UNENDED};
use peer::{Ending, Totals};

use lines::Lines;
use reports::{number, Report, WAYS};
use totals::Closed;

/// Of an item asked for: there is one, or 13.
const ITEM: &str = "item";

fn main() -> ExitCode {
    let arguments: Vec<String> = std::env::args().skip(1).collect();
    let done = match &arguments[..] {
        [question, names @ ..] if question == "list" => of_lists(names).map(print),
        [question, names @ ..] if question == ITEM => of_items(names).map(print),
        [question, names @ ..] if question == "check" => of_checks(names).map(print),
        [question] if question == "report" => report(),
        _ => Err(io::Error::other("usage: coverage list|item|check FILE.. | coverage report")),
    };
    match done {
        Ok(true) => ExitCode::SUCCESS,
        Ok(false) => ExitCode::FAILURE,
        Err(error) => {
            eprintln!("coverage: {error}");
            ExitCode::from(2)
        }
    }
}

/// Prints how many files met each of these.
fn print(met: Vec<String>) -> bool {
    let mut counts: BTreeMap<String, u64> = BTreeMap::new();
    met.into_iter().for_each(|met| *counts.entry(met).or_default() += 1);
    counts.iter().for_each(|(name, files)| println!("{name}: {files}"));
    true
}

/// The numbers under these keys, with which a program ends what it prints
/// about each of these files, on standard input.
fn last_numbers<const N: usize>(keys: [&str; N], names: &[String]) -> io::Result<Vec<[u64; N]>> {
    let mut all = Vec::new();
    let mut numbers = Vec::new();
    for line in io::stdin().lock().split(b'\n') {
        let line = line?;
        let line = String::from_utf8_lossy(&line);
        let (key, value) = line.split_once('=').unwrap_or((&line, ""));
        if key == keys[numbers.len()] {
            let wrong = || io::Error::other(format!("{line}: not as a number is printed"));
            numbers.push(number(value).ok_or_else(wrong)?);
        } else if !numbers.is_empty() || keys.contains(&key) {
            return Err(io::Error::other(format!("{line}: not in its place")));
        }
        if let Ok(whole) = <[u64; N]>::try_from(&numbers[..]) {
            all.push(whole);
            numbers.clear();
        }
    }
    if all.len() != names.len() || !numbers.is_empty() {
        return Err(io::Error::other("not one answer for each file"));
    }
    Ok(all)
}

fn of_lists(names: &[String]) -> io::Result<Vec<String>> {
    let mut all = Vec::new();
    let keys = ["file-items", "file-amount", "answer", "line", "column"];
    for (name, numbers) in names.iter().zip(last_numbers(keys, names)?) {
        let [items, amount, answer, line, column] = numbers;
        let (answer, line, column) = (answer as u8, line as usize, column as usize);
        let file = std::fs::read(name)?;
        let lines = Lines::of(&file);
        all.extend(met_by_file(&lines, answer, line, column).iter().map(Met::to_string));
        let closed = Closed::of(&lines, answer, line);
        same_totals(name, &closed, Totals { items, amount })?;
        all.extend(closed.shapes(&lines, answer, line));
        if answer == 0 {
            all.extend(shapes::of(&file));
        }
    }
    Ok(all)
}

/// Are the totals printed those of the lines that the file itself has?
fn same_totals(name: &str, closed: &Closed, printed: Totals) -> io::Result<()> {
    if closed.totals == printed {
        return Ok(());
    }
    let wrong = format!("{name}: {:?}, but {printed:?} was printed", closed.totals);
    Err(io::Error::other(wrong))
}

/// The file's own refusal is counted with the file.
fn of_items(names: &[String]) -> io::Result<Vec<String>> {
    let mut all = Vec::new();
    let keys = ["answer", "line", "column"];
    for (name, [answer, _, _]) in names.iter().zip(last_numbers(keys, names)?) {
        if matches!(answer, 0 | 13) {
            all.push(of_item(answer as u8, Ending::after_line(&std::fs::read(name)?)));
        }
    }
    Ok(all)
}

fn of_item(answer: u8, ending: Ending) -> String {
    Met::new(ending, answer, ITEM, 0, ANY).to_string()
}

fn of_checks(names: &[String]) -> io::Result<Vec<String>> {
    let mut all = Vec::new();
    let mut printed = String::new();
    io::stdin().lock().read_to_string(&mut printed)?;
    let mut lines = printed.lines();
    for name in names {
        let Some(report) = Report::take(name, &mut lines) else {
            return Err(io::Error::other(format!("{name}: not as check prints it")));
        };
        let Report { answer, line, column, field, way, totals } = report;
        let file = std::fs::read(name)?;
        let lines_of_file = Lines::of(&file);
        if let Some(totals) = totals {
            same_totals(name, &Closed::of(&lines_of_file, answer, line), totals)?;
        }
        let met = met_by_file(&lines_of_file, answer, line, column);
        all.extend(met.iter().map(|met| in_words(met, field.as_deref())));
        all.extend(way.map(broken));
    }
    match lines.next() {
        None => Ok(all),
        Some(line) => Err(io::Error::other(format!("of no file: {line}"))),
    }
}

/// An answer told in words.
fn in_words(met: &Met, field: Option<&str>) -> String {
    format!("{met} field={}", field.unwrap_or(NONE))
}

fn broken(way: &str) -> String {
    format!("broken: {way}")
}

fn met_by_file(lines: &Lines, answer: u8, line: usize, column: usize) -> Vec<Met> {
    let met = |record, after| Met::new(lines.ending, answer, record, column, after);
    let (after, here, record) = (lines.record_before(line), lines.from(line), lines.record(line));
    match answer {
        0 => vec![met(NONE, ANY)],
        // Once by what stands there, once by the place.
        1 if Ending::after_line(here) != Ending::Unknown => {
            vec![met(record, ANY), met(OTHER_END, after)]
        }
        1 if here.len() < lines.length => vec![met(SHORT, after)],
        1 => vec![met(UNENDED, after)],
        2 => vec![met(code_of(here), ANY), met(ANY, after)],
        3 => vec![met(record, after)],
        10 | 11 => vec![met(NONE, after)],
        _ => {
            let own = (1..line).rev().find_map(|before| ordering_account(lines.from(before)));
            let mut codes = vec![record];
            codes.extend(unchecked::codes(here, own.unwrap_or_default(), answer, column));
            codes.into_iter().map(|code| met(code, ANY)).collect()
        }
    }
}

/// What stands in that field of the line that these bytes begin with; none if
/// it is no batch header.
fn ordering_account(here: &[u8]) -> Option<&[u8]> {
    here.starts_with(b"0010").then(|| here.get(7..17))?
}

/// The code alone, its variant being wrong.
fn code_of(here: &[u8]) -> &'static str {
    let mut known = CODES.iter().map(|code| &code[..4]);
    known.find(|code| here.starts_with(code.as_bytes())).unwrap_or(OTHER)
}

/// Adds up counts under the same name.
fn totals() -> io::Result<BTreeMap<String, u64>> {
    let mut totals = BTreeMap::new();
    for line in io::stdin().lock().lines() {
        let line = line?;
        let (name, files) = line.rsplit_once(": ").unwrap_or((&line, ""));
        let files: u64 = files.parse().map_err(io::Error::other)?;
        *totals.entry(name.to_string()).or_default() += files;
    }
    Ok(totals)
}

fn report() -> io::Result<bool> {
    let mut totals = totals()?;
    let table = reachable();
    let items = Ending::BOTH.iter().flat_map(|&ending| [0, 13].map(|n| of_item(n, ending)));
    let answers = table.iter().map(Met::to_string).chain(items).collect();
    let told = table.iter().map(|met| in_words(met, met.field())).collect();
    let mut all_met = true;
    for (what, names) in [
        ("answers", answers),
        ("answers of check with the name of the field", told),
        ("ways to be broken", WAYS.map(broken).to_vec()),
        ("shapes of accepted files", shapes::all()),
        ("shapes of totals", totals::all()),
    ] {
        all_met &= summary(what, &names, &mut totals);
    }
    totals.keys().for_each(|name| println!("coverage: {name} was met and isn't in the table"));
    Ok(all_met && totals.is_empty())
}

/// Prints how many files met each of these, and takes them out of `totals`.
/// Was each met?
fn summary(what: &str, names: &[String], totals: &mut BTreeMap<String, u64>) -> bool {
    let files: Vec<u64> = names.iter().map(|name| totals.remove(name).unwrap_or(0)).collect();
    for (name, files) in names.iter().zip(&files) {
        let mark = if *files == 0 { "coverage: no file has " } else { "" };
        println!("{mark}{name}: {files}");
    }
    let met = files.iter().filter(|&&files| files > 0).count();
    let fewest = files.iter().min().expect("there are some");
    println!("coverage: {met} of {} {what} met, each by {fewest} files or more", names.len());
    met == names.len()
}
