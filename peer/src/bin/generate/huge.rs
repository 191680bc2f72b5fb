//! The few large files: the limits on items and on batches.

use peer::Ending;

use crate::line::Line;
use crate::plan::{batch, file_of, Extras, Plan};
use crate::random::Random;
use crate::spoil::spoil_field;
use crate::values::{any_account, ordinary_account, seven_digit_account, LARGEST_TOTAL};

/// Which of them file `index` is: of each of the first eight thousands two,
/// one with each line end.
pub fn scenario(index: u64) -> Option<(u64, Ending)> {
    let ending = match index % 1000 {
        50 => Ending::ThirteenTen,
        51 => Ending::Ten,
        _ => return None,
    };
    (index < 8000).then_some((index / 1000, ending))
}

pub fn file(random: &mut Random, scenario: u64) -> Vec<Line> {
    let debits = random.coin();
    let mut lines = match scenario {
        0 => over_the_total_too(random, debits),
        3 => many_batches(random, debits),
        4 => more_than_a_batch(random, debits),
        6 => many_items(random, debits, 100_000),
        5 => many_items(random, debits, 99_999),
        _ => many_items(random, debits, 100_001),
    };
    let trailer = lines.len() - 2;
    match scenario {
        // Another fault on item 100,001 comes first.
        1 => spoil_field(random, &mut lines[trailer - 1]),
        2 => lacks_its_name(random, &mut lines[trailer - 2], debits),
        // The trailer counts one more than there may be.
        6 => lines[trailer].set(34, b"0100001"),
        _ => {}
    }
    lines
}

/// The item before item 100,001 is of an unchecked type without its name.
fn lacks_its_name(random: &mut Random, line: &mut Line, debits: bool) {
    let (kind, column) = if debits { ("1002", 22) } else { ("0000", 32) };
    line.set(6, kind);
    line.set(column, format!("{:010}", seven_digit_account(random)));
}

fn many_batches(random: &mut Random, debits: bool) -> Vec<Line> {
    let plans: Vec<Plan> = (0..9_999).map(|_| Plan::ordinary(random, 1)).collect();
    file_of(random, debits, 1, &plans, Extras::None)
}

fn many_items(random: &mut Random, debits: bool, items: usize) -> Vec<Line> {
    let cents = random.between(1, 40_000_000);
    of_amounts(random, debits, vec![cents; items])
}

/// A batch with as many items as it may have, and then another.
fn more_than_a_batch(random: &mut Random, debits: bool) -> Vec<Line> {
    let mut lines = many_items(random, debits, 100_000);
    let more = Plan::ordinary(random, 2);
    let end = lines.len() - 1;
    lines.splice(end..end, batch(random, debits, 2, &more, Extras::None));
    lines
}

/// Item 100,001 is over the total too; its column comes second.
fn over_the_total_too(random: &mut Random, debits: bool) -> Vec<Line> {
    let mut amounts = vec![45_000_000; 100_001];
    amounts[0] += LARGEST_TOTAL - 45_000_000 * 100_000;
    of_amounts(random, debits, amounts)
}

fn of_amounts(random: &mut Random, debits: bool, amounts: Vec<u64>) -> Vec<Line> {
    let usual = any_account(random);
    let others = (0..amounts.len())
        .map(|n| if n % 1000 == 0 { any_account(random) } else { usual })
        .collect();
    let plan = Plan { amounts, others, account: ordinary_account(random) };
    file_of(random, debits, 1, &[plan], Extras::None)
}
