//! One item of one batch, with the descriptions that belong to it.

use crate::answer::{number, Answer};
use crate::check::read;
use crate::records::{Record, Transaction, TransactionType};

/// The bytes the descriptions of an item fill: four of 32.
pub const DESCRIPTION_ROOM: usize = 128;

/// An item handed out. With any answer but 0 there is no type, the numbers
/// are zero and the texts spaces.
#[derive(Clone, Copy, Debug, PartialEq, Eq)]
pub struct Item {
    pub answer: Answer,
    pub kind: Option<TransactionType>,
    pub amount: u64,
    pub payer: u64,
    pub beneficiary: u64,
    pub reference: [u8; 16],
    /// Only the first 24 characters of a name are processed.
    pub name: [u8; 24],
}

impl Item {
    fn refused(answer: Answer) -> Self {
        Self {
            answer,
            kind: None,
            amount: 0,
            payer: 0,
            beneficiary: 0,
            reference: [b' '; 16],
            name: [b' '; 24],
        }
    }
}

/// Up to four descriptions, each in its place, the rest spaces.
struct Descriptions {
    texts: [[u8; 32]; 4],
    count: usize,
}

impl Descriptions {
    fn none() -> Self {
        Self { texts: [[b' '; 32]; 4], count: 0 }
    }

    fn push(&mut self, text: &[u8; 32]) {
        self.texts[self.count] = *text;
        self.count += 1;
    }

    fn iter(&self) -> impl Iterator<Item = &[u8; 32]> {
        self.texts[..self.count].iter()
    }
}

/// What was seen so far of the item that is looked for.
struct Search {
    batch: u64,
    item: u64,
    /// Batches begun so far, and items of the last one.
    at_batch: u64,
    at_item: u64,
    transaction: Option<Transaction>,
    reference: Option<[u8; 16]>,
    name: [u8; 24],
    /// Descriptions of the batch, then of the item.
    fixed: Descriptions,
    own: Descriptions,
}

impl Search {
    fn new(batch: u64, item: u64) -> Self {
        Self {
            batch,
            item,
            at_batch: 0,
            at_item: 0,
            transaction: None,
            reference: None,
            name: [b' '; 24],
            fixed: Descriptions::none(),
            own: Descriptions::none(),
        }
    }

    /// Counts a record and keeps it if it belongs to the item.
    fn see(&mut self, record: &Record) {
        match record {
            Record::BatchHeader(_) => {
                self.at_batch += 1;
                self.at_item = 0;
            }
            Record::Transaction(_) => self.at_item += 1,
            _ => {}
        }
        if self.at_batch != self.batch {
            return;
        }
        if let Record::FixedDescription(text) = record {
            self.fixed.push(text);
        }
        // The items of a batch end with its trailer, but no record that is
        // kept comes between it and the next.
        if self.at_item == self.item {
            self.keep(record);
        }
    }

    fn keep(&mut self, record: &Record) {
        match record {
            Record::Transaction(fields) => self.transaction = Some(*fields),
            Record::Reference(text) => self.reference = Some(*text),
            Record::Description(text) => self.own.push(text),
            Record::PayerName(text) | Record::BeneficiaryName(text) => {
                self.name.copy_from_slice(&text[..24]);
            }
            _ => {}
        }
    }

    /// The fixed descriptions, then the item's own, cut to four, or to three
    /// with a reference.
    fn merge(&self, room: &mut [u8; DESCRIPTION_ROOM]) {
        let places = if self.reference.is_some() { 3 } else { 4 };
        let texts = self.fixed.iter().chain(self.own.iter()).take(places);
        room.fill(b' ');
        for (place, text) in room.chunks_exact_mut(32).zip(texts) {
            place.copy_from_slice(text);
        }
    }
}

/// Hands out item `item` of batch `batch`, each counted from 1, and fills the
/// first 128 bytes of `out` with its descriptions.
///
/// The file's own refusal comes first, then 13, then 12. With any answer but
/// 0 `out` stays as it was; bytes beyond the first 128 always do.
pub fn item(file: &[u8], batch: u64, item: u64, out: &mut [u8]) -> Item {
    let mut search = Search::new(batch, item);
    let answer = read(file, |record| search.see(record)).answer;
    if !answer.is_accepted() {
        return Item::refused(answer);
    }
    let Some(transaction) = search.transaction else {
        return Item::refused(Answer::new(number::NO_SUCH_ITEM, answer.line, 0));
    };
    let Some(room) = out.first_chunk_mut::<DESCRIPTION_ROOM>() else {
        return Item::refused(Answer::new(number::ROOM, answer.line, 0));
    };
    search.merge(room);
    Item {
        answer,
        kind: Some(transaction.kind),
        amount: transaction.amount,
        payer: transaction.payer,
        beneficiary: transaction.beneficiary,
        reference: search.reference.unwrap_or([b' '; 16]),
        name: search.name,
    }
}
