//! Faults that take some care to reach.

use crate::line::{lines_with, Line};
use crate::plan::{batch, file_of, Extras, Plan};
use crate::random::Random;
use crate::records;
use crate::spoil::spoil_field;
use crate::valid::{self, with_line};
use crate::values::{LARGEST_AMOUNT, LARGEST_TOTAL, TEN_DIGITS};

pub fn file(random: &mut Random) -> Vec<Line> {
    match random.below(28) {
        0 => over_the_total_and_more(random),
        1 | 2 => after_sequence_9999(random),
        3 | 4 => batch_of_the_other_group(random),
        5 | 6 => called_the_other_group(random),
        7..=10 => too_many_of_a_kind(random),
        11..=13 => name_or_city_wrong(random),
        14..=17 => another_type(random),
        18 | 19 => name_or_city_added(random),
        20 | 21 => without_items(random),
        22 | 23 => wrong_sum(random),
        24 | 25 => unchecked_over_the_total(random),
        _ => another_trailer(random),
    }
}

/// A batch over its total, by one cent or much more.
pub fn over_the_total(random: &mut Random) -> Vec<Line> {
    let debits = random.coin();
    let mut plan = Plan::ordinary(random, 1);
    plan.reach_total(random, LARGEST_TOTAL);
    let over = *random.pick(&[1, 1, 2, 100, LARGEST_AMOUNT]);
    plan.add(random, over);
    let more = random.below(3);
    (0..more).for_each(|_| plan.add(random, 1));
    let sequence = random.between(1, 9_999);
    file_of(random, debits, sequence, &[plan], Extras::None)
}

/// Another fault on one of the last lines.
fn over_the_total_and_more(random: &mut Random) -> Vec<Line> {
    let mut lines = over_the_total(random);
    let at = lines.len() - 1 - random.index(5);
    spoil_field(random, &mut lines[at]);
    lines
}

/// The item over the total is of an unchecked type: its account comes first
/// where that is an ordinary one.
fn unchecked_over_the_total(random: &mut Random) -> Vec<Line> {
    let mut lines = over_the_total(random);
    // 101 items make the total.
    let over = lines_with(&lines, "0100A")[101];
    let kind = if lines[over].is("0100A1") { "1002" } else { *random.pick(&["0000", "0003"]) };
    lines[over].set(6, kind);
    lines
}

/// A file with one more batch, put in before the file trailer.
fn with_batch(mut lines: Vec<Line>, batch: Vec<Line>) -> Vec<Line> {
    let end = lines.len() - 1;
    lines.splice(end..end, batch);
    lines
}

fn after_sequence_9999(random: &mut Random) -> Vec<Line> {
    let debits = random.coin();
    let batches = random.between(1, 3);
    let plans: Vec<Plan> = (0..batches).map(|_| Plan::ordinary(random, 1)).collect();
    let lines = file_of(random, debits, 10_000 - batches, &plans, Extras::Some);
    let extra = Plan::ordinary(random, 1);
    let next = *random.pick(&[0, 1, 9_999, 9_998, 5]);
    let more = batch(random, debits, next, &extra, Extras::Some);
    with_batch(lines, more)
}

fn batch_of_the_other_group(random: &mut Random) -> Vec<Line> {
    let debits = random.coin();
    let first = Plan::ordinary(random, 2);
    let second = Plan::ordinary(random, 2);
    let lines = file_of(random, debits, 7, &[first], Extras::Some);
    let more = batch(random, !debits, 8, &second, Extras::Some);
    with_batch(lines, more)
}

/// A first batch that calls itself of the other group.
fn called_the_other_group(random: &mut Random) -> Vec<Line> {
    let debits = random.coin();
    let plan = Plan::ordinary(random, 2);
    let mut lines = file_of(random, debits, 1, &[plan], Extras::Some);
    lines[1].set(6, if debits { "00" } else { "10" });
    lines
}

fn too_many_of_a_kind(random: &mut Random) -> Vec<Line> {
    let code = *random.pick(&["0020A", "0160A", "0150A"]);
    let (mut lines, found) = with_line(random, code);
    let at = *random.pick(&found);
    let more = random.between(1, 4);
    for _ in 0..more {
        let line = records::of_text(random, code);
        lines.insert(at, line);
    }
    lines
}

/// A name or city record left out, doubled, or of the other group.
fn name_or_city_wrong(random: &mut Random) -> Vec<Line> {
    let (code, other) = *random.pick(&[
        ("0110B", "0170B"),
        ("0170B", "0110B"),
        ("0113B", "0173B"),
        ("0173B", "0113B"),
    ]);
    let (mut lines, found) = with_line(random, code);
    let at = *random.pick(&found);
    match random.below(3) {
        0 => {
            lines.remove(at);
        }
        1 => {
            let line = lines[at].clone();
            lines.insert(at, line);
        }
        _ => lines[at].set(1, other),
    }
    lines
}

/// Another type, so that the name is there or not against the rule.
fn another_type(random: &mut Random) -> Vec<Line> {
    let (mut lines, found) = with_line(random, "0100A");
    let at = *random.pick(&found);
    let kind = if lines[at].is("0100A1") {
        *random.pick(&["1001", "1002"])
    } else {
        *random.pick(&["0000", "0003", "0005", "0008"])
    };
    lines[at].set(6, kind);
    lines
}

/// A name or a city put in somewhere in the items.
fn name_or_city_added(random: &mut Random) -> Vec<Line> {
    let (mut lines, found) = with_line(random, "0100A");
    let at = *random.pick(&found) + 1 + random.index(3);
    let at = at.min(lines.len());
    let code = *random.pick(&["0110B", "0170B", "0113B", "0173B"]);
    let line = records::stray(random, code);
    lines.insert(at, line);
    lines
}

/// A batch without items, or a file without batches.
fn without_items(random: &mut Random) -> Vec<Line> {
    let mut lines = valid::file(random);
    if random.one_in(3) {
        lines.drain(1..lines.len() - 1);
        return lines;
    }
    let first = lines_with(&lines, "0100A")[0];
    let end = lines_with(&lines, "9990A")[0];
    lines.drain(first..end);
    if random.coin() {
        lines[first] = records::trailer(0, 0, 0);
    }
    lines
}

/// The trailer sums only the other parties, or only the own account, or
/// carries over.
fn wrong_sum(random: &mut Random) -> Vec<Line> {
    let (mut lines, found) = with_line(random, "9990A");
    let at = found[0];
    let items = lines_with(&lines[..at], "0100A");
    let payers: u64 = items.iter().map(|&item| lines[item].number(22, 10)).sum();
    let beneficiaries: u64 = items.iter().map(|&item| lines[item].number(32, 10)).sum();
    let sum = payers + beneficiaries;
    let wrong = match random.below(4) {
        0 => payers,
        1 => beneficiaries,
        2 => sum % TEN_DIGITS + sum / TEN_DIGITS,
        _ => sum / 10,
    };
    lines[at].set(24, format!("{:010}", wrong % TEN_DIGITS));
    lines
}

/// The trailer of another batch, or a field of it spoiled.
fn another_trailer(random: &mut Random) -> Vec<Line> {
    let (mut lines, found) = with_line(random, "9990A");
    let (one, other) = (*random.pick(&found), *random.pick(&found));
    lines.swap(one, other);
    if one == other {
        spoil_field(random, &mut lines[one]);
    }
    lines
}
