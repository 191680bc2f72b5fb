//! The file with the largest total amount that there can be.

use std::io::{self, Write};

use peer::Ending;

use crate::line::{join, Line};
use crate::plan::{batch, Extras, Plan};
use crate::random::Random;
use crate::records;
use crate::values::LARGEST_TOTAL;

/// Writes it batch by batch: 9,999 of them, each with 100 items of the largest
/// amount and one of 101 cents.
pub fn write(random: &mut Random, out: &mut impl Write) -> io::Result<()> {
    let debits = random.coin();
    let ending = *random.pick(&Ending::BOTH);
    out.write_all(&join(&[records::header(random)], ending))?;
    for sequence in 1..=9_999 {
        let mut plan = Plan::ordinary(random, 1);
        plan.reach_total(random, LARGEST_TOTAL);
        out.write_all(&join(&batch(random, debits, sequence, &plan, Extras::None), ending))?;
    }
    out.write_all(&join(&[Line::new("9999A")], ending))?;
    out.flush()
}
