//! Files with batches that are closed before what the answer is about.

use peer::table::{Met, ANY, START};
use peer::Ending;

use crate::aims;
use crate::line::{join, Line};
use crate::plan::{batch, Extras, Plan};
use crate::random::Random;
use crate::values::LARGEST_TOTAL;

/// An answer with one closed batch, or with several.
#[derive(Clone, Copy)]
pub struct Later {
    answer: u8,
    several: bool,
    ending: Ending,
}

/// Each answer of the table, with both line ends.
pub fn all() -> Vec<Later> {
    let mut answers: Vec<u8> = aims::all().iter().map(|aim| aim.answer).collect();
    answers.dedup();
    let both = |answer| [false, true].map(|several| (answer, several));
    let with = |(answer, several)| Ending::BOTH.map(|ending| Later { answer, several, ending });
    answers.into_iter().flat_map(both).flat_map(with).collect()
}

/// A file with that answer about its one batch, and batches put in before it.
pub fn file(random: &mut Random, later: Later) -> Vec<u8> {
    let fits = |aim: &Met| {
        (aim.answer, aim.ending) == (later.answer, later.ending) && is_of_one_batch(aim)
    };
    let aims: Vec<Met> = aims::all().into_iter().filter(fits).collect();
    loop {
        let closed = if later.several { random.between(2, 4) } else { 1 };
        // Where nothing is refused before its trailer, the batch itself is closed.
        let more = closed - u64::from(matches!(later.answer, 0 | 11));
        let aim = *random.pick(&aims);
        let lines = aims::lines(random, aim);
        if let Some(lines) = preceded(random, lines, more) {
            return join(&lines, later.ending);
        }
    }
}

/// Is this answer given after the file header and before the batch is closed,
/// or else about the whole file?
fn is_of_one_batch(aim: &Met) -> bool {
    match aim.answer {
        0 | 11 => true,
        1 | 2 | 3 | 10 => ![START, "0001A", "9990A", ANY].contains(&aim.after),
        _ => !["0001A", "9999A"].contains(&aim.record),
    }
}

/// This file with so many batches put in before its first; none if it has
/// another one, or if that has no group, or a number that is too low.
fn preceded(random: &mut Random, mut lines: Vec<Line>, more: u64) -> Option<Vec<Line>> {
    let headers = lines.iter().filter(|line| line.is("0010")).count();
    let header = lines.get(1).filter(|line| headers == 1 && line.is("0010"))?;
    let debits = match header.text(6, 2).as_str() {
        "00" => false,
        "10" => true,
        _ => return None,
    };
    let first = header.number(18, 4).checked_sub(more).filter(|&first| first > 0)?;
    let before: Vec<Line> =
        (first..first + more).flat_map(|sequence| any_batch(random, debits, sequence)).collect();
    lines.splice(1..1, before);
    Some(lines)
}

/// A good batch; one in three has a total at its maximum.
fn any_batch(random: &mut Random, debits: bool, sequence: u64) -> Vec<Line> {
    let items = random.between(1, 3);
    let mut plan = Plan::ordinary(random, items);
    if random.one_in(3) {
        plan.reach_total(random, LARGEST_TOTAL);
        return batch(random, debits, sequence, &plan, Extras::None);
    }
    batch(random, debits, sequence, &plan, Extras::Some)
}

#[cfg(test)]
mod tests {
    use super::*;

    #[test]
    fn each_is_met() {
        assert_eq!(all().len(), 13 * 2 * 2);
        for (index, later) in (0..).zip(all()) {
            for seed in 1..=10 {
                let file = file(&mut Random::new(seed, index), later);
                let mut listing = Vec::new();
                let answer = peer::list(&file, &mut listing).unwrap();
                let listing = String::from_utf8_lossy(&listing);
                let closed = listing.lines().filter(|line| line.starts_with("batch=")).count();
                assert_eq!(answer.number, later.answer, "{listing}");
                assert_eq!((closed > 0, closed > 1), (true, later.several), "{listing}");
                assert_eq!(Ending::after_line(&file), later.ending);
            }
        }
    }
}
