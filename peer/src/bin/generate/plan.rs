//! Batches and files from a plan of their amounts and accounts.

use crate::line::Line;
use crate::random::Random;
use crate::records;
use crate::values::{
    amount, any_account, eleven_rest, is_ordinary, ordinary_account, LARGEST_AMOUNT, TEN_DIGITS,
};

/// A batch: its ordering account, and an amount and another party for every
/// item.
pub struct Plan {
    pub amounts: Vec<u64>,
    pub others: Vec<u64>,
    pub account: u64,
}

impl Plan {
    pub fn ordinary(random: &mut Random, items: u64) -> Self {
        Plan {
            amounts: (0..items).map(|_| amount(random)).collect(),
            others: (0..items).map(|_| any_account(random)).collect(),
            account: ordinary_account(random),
        }
    }

    /// One more item.
    pub fn add(&mut self, random: &mut Random, cents: u64) {
        self.amounts.push(cents);
        self.others.push(any_account(random));
    }

    /// Amounts that make a total exactly.
    pub fn reach_total(&mut self, random: &mut Random, total: u64) {
        self.amounts.clear();
        let mut left = total;
        while left > 0 {
            let most = LARGEST_AMOUNT.min(left);
            self.amounts.push(most);
            left -= most;
        }
        let swap = random.index(self.amounts.len());
        let last = self.amounts.len() - 1;
        self.amounts.swap(swap, last);
        self.others = (0..=last).map(|_| any_account(random)).collect();
    }

    /// Accounts of which the sum ends in `ending`.
    pub fn reach_accounts(&mut self, random: &mut Random, ending: u64) {
        loop {
            // Near the top a seven-digit account can make it up.
            let high = random.between(9_990_000_001, 9_999_999_999);
            self.account = if random.coin() { ordinary_account(random) } else { high };
            self.others.iter_mut().for_each(|other| *other = any_account(random));
            let last = self.others.len() - 1;
            let sum: u64 =
                self.others[..last].iter().sum::<u64>() + self.account * (last as u64 + 1);
            let needed = (ending + TEN_DIGITS - sum % TEN_DIGITS) % TEN_DIGITS;
            let is_seven = (1..=9_999_999).contains(&needed);
            let is_good = is_seven || is_ordinary(needed) && eleven_rest(needed) == 0;
            if is_good && eleven_rest(self.account) == 0 {
                self.others[last] = needed;
                return;
            }
        }
    }

    pub fn trailer(&self) -> Line {
        let others: u64 = self.others.iter().sum();
        let items = self.amounts.len() as u64;
        records::trailer(self.amounts.iter().sum(), others + items * self.account, items)
    }
}

/// How much comes along with each item.
#[derive(Clone, Copy, PartialEq)]
pub enum Extras {
    None,
    Some,
    All,
}

/// The types of a group, all of them or those that are checked.
fn types(debits: bool, all: bool) -> &'static [&'static str] {
    match (debits, all) {
        (true, false) => &["1001"],
        (true, true) => &["1001", "1002"],
        (false, false) => &["0005", "0008"],
        (false, true) => &["0000", "0003", "0005", "0008"],
    }
}

/// Is this a type that needs a name and a seven-digit account?
pub fn is_unchecked(kind: &str) -> bool {
    matches!(kind, "0000" | "0003" | "1002")
}

/// The records after an 0100.
fn push_extras(
    lines: &mut Vec<Line>,
    random: &mut Random,
    debits: bool,
    unchecked: bool,
    all: bool,
) {
    let city = all || random.one_in(3);
    let reference = random.one_in(if all { 2 } else { 3 });
    let most = if reference { 3 } else { 4 };
    let own = if all { most } else { random.between(0, most) };
    let mut name = Vec::new();
    if unchecked {
        name.push(records::of_text(random, if debits { "0110B" } else { "0170B" }));
    }
    if unchecked && city {
        name.push(records::city(random, if debits { "0113B" } else { "0173B" }));
    }
    if debits {
        lines.append(&mut name);
    }
    if reference {
        lines.push(records::of_text(random, "0150A"));
    }
    lines.extend((0..own).map(|_| records::of_text(random, "0160A")));
    lines.append(&mut name);
}

/// A batch with its trailer.
pub fn batch(
    random: &mut Random,
    debits: bool,
    sequence: u64,
    plan: &Plan,
    extras: Extras,
) -> Vec<Line> {
    let mut lines = vec![records::batch(random, debits, plan.account, sequence)];
    let fixed = match extras {
        Extras::None => 0,
        Extras::Some => random.below(5),
        Extras::All => 4,
    };
    lines.extend((0..fixed).map(|_| records::of_text(random, "0020A")));
    lines.push(records::party(random, debits));
    for (&cents, &other) in plan.amounts.iter().zip(&plan.others) {
        let all = extras != Extras::None && !is_ordinary(other);
        let kind = *random.pick(types(debits, all));
        let (payer, beneficiary) =
            if debits { (other, plan.account) } else { (plan.account, other) };
        lines.push(records::transaction(kind, cents, payer, beneficiary));
        if extras != Extras::None {
            push_extras(&mut lines, random, debits, is_unchecked(kind), extras == Extras::All);
        }
    }
    lines.push(plan.trailer());
    lines
}

pub fn file_of(
    random: &mut Random,
    debits: bool,
    first: u64,
    plans: &[Plan],
    extras: Extras,
) -> Vec<Line> {
    let mut lines = vec![records::header(random)];
    for (sequence, plan) in (first..).zip(plans) {
        lines.extend(batch(random, debits, sequence, plan, extras));
    }
    lines.push(Line::new("9999A"));
    lines
}
