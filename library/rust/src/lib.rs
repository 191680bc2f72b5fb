//! CLIEOP03 payment files, over the proved library: every call is total, and
//! the answers are those of `docs/FORMAT.md`.
//!
//! `unsafe` stands in this file only, in the four calls; each passes slices as
//! pointer and length, which is what the library is proved for.

mod c {
    extern "C" {
        pub fn clieop_check(file: *const u8, length: usize) -> u64;
        pub fn clieop_totals(
            file: *const u8,
            length: usize,
            items: *mut u64,
            amount: *mut u64,
        ) -> u64;
        pub fn clieop_item(
            file: *const u8,
            length: usize,
            batch: u64,
            item: u64,
            texts: *mut u8,
            room: usize,
            numbers: *mut u64,
            count: usize,
        ) -> u64;
        pub fn clieop_rewrite(
            file: *const u8,
            length: usize,
            out: *mut u8,
            room: usize,
            written: *mut u64,
        ) -> u64;
    }
}

/// An answer's number, with the line and column that it names.
#[derive(Clone, Copy, Debug, PartialEq, Eq)]
pub struct Answer {
    pub number: u8,
    pub line: u64,
    pub column: u64,
}

impl Answer {
    pub fn is_accepted(&self) -> bool {
        self.number == 0
    }

    /// As the library returns it: the answer in the lowest byte, the column in
    /// the next, the line above them.
    fn unpacked(returned: u64) -> Answer {
        Answer {
            number: (returned & 255) as u8,
            line: returned >> 16,
            column: returned >> 8 & 255,
        }
    }
}

/// What all batches of a file come to: how many items they have, and their
/// amounts in cents.
#[derive(Clone, Copy, Debug, PartialEq, Eq)]
pub struct Totals {
    pub items: u64,
    pub amount: u64,
}

/// An item of a file: its type as a number, its amount in cents, its accounts
/// and its texts, with spaces where there are none.
#[derive(Clone, Copy, Debug, PartialEq, Eq)]
pub struct Item {
    pub kind: u64,
    pub amount: u64,
    pub payer: u64,
    pub beneficiary: u64,
    pub reference: [u8; 16],
    pub name: [u8; 24],
    pub descriptions: [[u8; 32]; 4],
}

/// The answer of a whole file; an accepted one's line is its number of lines.
pub fn check(file: &[u8]) -> Answer {
    Answer::unpacked(unsafe { c::clieop_check(file.as_ptr(), file.len()) })
}

/// What all batches of a file come to, or its refusal.
pub fn totals(file: &[u8]) -> Result<Totals, Answer> {
    let mut items = 0;
    let mut amount = 0;
    let answer = Answer::unpacked(unsafe {
        c::clieop_totals(file.as_ptr(), file.len(), &mut items, &mut amount)
    });
    if answer.is_accepted() {
        Ok(Totals { items, amount })
    } else {
        Err(answer)
    }
}

/// Item number `item` of batch number `batch`, both counted from 1.
pub fn item(file: &[u8], batch: u64, item: u64) -> Result<Item, Answer> {
    let mut texts = [0; 168];
    let mut numbers = [0; 4];
    let answer = Answer::unpacked(unsafe {
        c::clieop_item(
            file.as_ptr(),
            file.len(),
            batch,
            item,
            texts.as_mut_ptr(),
            texts.len(),
            numbers.as_mut_ptr(),
            numbers.len(),
        )
    });
    if !answer.is_accepted() {
        return Err(answer);
    }
    let [kind, amount, payer, beneficiary] = numbers;
    Ok(Item {
        kind,
        amount,
        payer,
        beneficiary,
        reference: text(&texts, 128),
        name: text(&texts, 144),
        descriptions: [0, 32, 64, 96].map(|at| text(&texts, at)),
    })
}

/// The text of N characters that begins at a byte of an item's texts.
fn text<const N: usize>(texts: &[u8; 168], at: usize) -> [u8; N] {
    std::array::from_fn(|i| texts[at + i])
}

/// The file written again without its city records, to the front of `out`,
/// each line ended by 13 and 10 whatever the file had: how many bytes that
/// are, 52 for each line that is kept, or the refusal, which leaves `out` as
/// it was. Where `out` is shorter, that is 12 where nothing else applies.
pub fn rewrite(file: &[u8], out: &mut [u8]) -> Result<usize, Answer> {
    let mut written = 0;
    let answer = Answer::unpacked(unsafe {
        c::clieop_rewrite(
            file.as_ptr(),
            file.len(),
            out.as_mut_ptr(),
            out.len(),
            &mut written,
        )
    });
    if answer.is_accepted() {
        Ok(written as usize)
    } else {
        Err(answer)
    }
}
