//! Valid files of every shape.

use crate::line::{lines_with, Line};
use crate::plan::{file_of, Extras, Plan};
use crate::random::Random;
use crate::values::LARGEST_TOTAL;

/// A valid file of any shape.
pub fn file(random: &mut Random) -> Vec<Line> {
    match random.below(60) {
        // As short as can be.
        0 => of_batches(random, 1, 1, Extras::None),
        // Everything that may be there.
        1..=3 => {
            let batches = random.between(1, 2);
            of_batches(random, batches, 3, Extras::All)
        }
        4 => {
            let batches = random.between(5, 20);
            of_batches(random, batches, 1, Extras::Some)
        }
        5 => many_items(random),
        6 => largest_total(random),
        7..=9 => account_sum(random),
        _ => {
            let batches = *random.pick(&[1, 1, 1, 2, 2, 3]);
            of_batches(random, batches, 4, Extras::Some)
        }
    }
}

fn first_sequence(random: &mut Random, batches: u64) -> u64 {
    match random.below(5) {
        0 | 1 => 1,
        2 => 10_000 - batches,
        _ => random.between(1, 10_000 - batches),
    }
}

fn of_plans(random: &mut Random, plans: &[Plan], extras: Extras) -> Vec<Line> {
    let debits = random.coin();
    let first = first_sequence(random, plans.len() as u64);
    file_of(random, debits, first, plans, extras)
}

fn of_batches(random: &mut Random, batches: u64, most_items: u64, extras: Extras) -> Vec<Line> {
    let plans: Vec<Plan> = (0..batches)
        .map(|_| {
            let items = random.between(1, most_items);
            Plan::ordinary(random, items)
        })
        .collect();
    of_plans(random, &plans, extras)
}

/// So many items that the account sum wraps more than once.
fn many_items(random: &mut Random) -> Vec<Line> {
    let items = random.between(20, 60);
    let plan = Plan::ordinary(random, items);
    let extras = if random.one_in(4) { Extras::Some } else { Extras::None };
    of_plans(random, &[plan], extras)
}

/// A total at its maximum, or a little under.
fn largest_total(random: &mut Random) -> Vec<Line> {
    let mut plan = Plan::ordinary(random, 1);
    let below = random.pick(&[0, 0, 0, 1, 100]);
    plan.reach_total(random, LARGEST_TOTAL - below);
    let mut plans = vec![plan];
    if random.coin() {
        plans.push(Plan::ordinary(random, 2));
    }
    of_plans(random, &plans, Extras::None)
}

/// An account sum that ends in zeros, or just before or after.
fn account_sum(random: &mut Random) -> Vec<Line> {
    let items = random.between(1, 4);
    let mut plan = Plan::ordinary(random, items);
    let ending = *random.pick(&[0, 0, 0, 1, 3, 9, 1_234, 9_999_999_999, 9_999_999_998]);
    plan.reach_accounts(random, ending);
    of_plans(random, &[plan], Extras::Some)
}

/// A valid file that has a line with this code, and the numbers of such lines.
pub fn with_line(random: &mut Random, code: &str) -> (Vec<Line>, Vec<usize>) {
    loop {
        let lines = file(random);
        let found = lines_with(&lines, code);
        if !found.is_empty() {
            return (lines, found);
        }
    }
}

/// A valid file with a number of lines after which `fits` holds.
pub fn with_place(random: &mut Random, fits: impl Fn(&[Line]) -> bool) -> (Vec<Line>, usize) {
    loop {
        let lines = file(random);
        let found: Vec<usize> = (0..=lines.len()).filter(|&upto| fits(&lines[..upto])).collect();
        if !found.is_empty() {
            let upto = *random.pick(&found);
            return (lines, upto);
        }
    }
}
