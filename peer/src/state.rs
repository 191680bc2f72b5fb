//! Reading line by line: the state so far, the fields of a line against it,
//! and what each line does to the state.

use crate::answer::{number, Answer};
use crate::ending::Ending;
use crate::fields::{is_seven_digits, Fault, Field, Fields};
use crate::records::{
    Batch, BatchHeader, BatchTrailer, FileHeader, Group, Kind, OrderingParty, Record, TestCode,
    Totals, Transaction, TransactionType, Variant,
};

/// The lines of the longest file that can be accepted: 9,999 batches of
/// 100,000 items of seven lines, each batch with seven lines of its own, and
/// the file's two.
pub const LONGEST_FILE: u64 = 9_999 * (100_000 * 7 + 7) + 2;

/// The last record that was read.
#[derive(Clone, Copy, Debug, PartialEq, Eq)]
pub enum Place {
    /// Nothing was read yet.
    Start,
    FileHeader,
    BatchHeader,
    FixedDescription,
    OrderingParty,
    Transaction,
    Name,
    City,
    Reference,
    Description,
    BatchTrailer,
    FileTrailer,
}

/// All that has to be remembered of the lines read so far.
#[derive(Clone, Copy, Debug, PartialEq, Eq)]
pub struct State {
    /// How many lines were read.
    pub lines: u64,
    /// How the lines read end; unknown, the next one may have either end.
    pub ending: Ending,
    pub place: Place,
    /// The group of the batches so far.
    pub group: Group,
    /// Sequence of the last batch header.
    pub sequence: u16,
    /// Ordering account of the last batch header.
    pub account: u64,
    /// Fixed descriptions of this batch.
    pub fixed: u8,
    /// Items of this batch.
    pub items: u32,
    /// Cents of this batch.
    pub total: u64,
    /// Payers and beneficiaries of this batch, rightmost ten digits.
    pub accounts: u64,
    /// Is this item of an unchecked type?
    pub unchecked: bool,
    /// Has this item's name been read?
    pub named: bool,
    /// Has this item's payment reference been read?
    pub referenced: bool,
    /// This item's own descriptions.
    pub own: u8,
    /// Of the batches closed so far.
    pub closed: Totals,
}

/// What reading one line gives.
#[derive(Clone, Copy, Debug, PartialEq, Eq)]
pub struct LineRead {
    /// Of an accepted line: 0, the lines read up to and with this one, 0.
    pub answer: Answer,
    /// The next state; after a refusal the state handed in.
    pub state: State,
    /// The record read; none after a refusal or at the end of the file.
    pub record: Option<Record>,
    /// How many bytes the line took, its end included; 0 without a record.
    pub taken: usize,
}

impl Default for State {
    fn default() -> Self {
        Self::new()
    }
}

impl State {
    /// The state before the first line.
    pub const fn new() -> Self {
        Self {
            lines: 0,
            ending: Ending::Unknown,
            place: Place::Start,
            group: Group::Payments,
            sequence: 0,
            account: 0,
            fixed: 0,
            items: 0,
            total: 0,
            accounts: 0,
            unchecked: false,
            named: false,
            referenced: false,
            own: 0,
            closed: Totals { items: 0, amount: 0 },
        }
    }

    /// Reads the line that `rest` begins with, `rest` being all bytes that
    /// remain of the file.
    ///
    /// Once the file trailer was read and no bytes remain, this answers 0
    /// with the number of lines and without a record.
    pub fn line(self, rest: &[u8]) -> LineRead {
        match self.read(rest) {
            Ok((state, record)) => {
                let taken = if record.is_some() { state.ending.line_length() } else { 0 };
                LineRead { answer: Answer::accepted(state.lines), state, record, taken }
            }
            Err(answer) => LineRead { answer, state: self, record: None, taken: 0 },
        }
    }

    fn read(self, rest: &[u8]) -> Result<(State, Option<Record>), Answer> {
        if !self.is_possible() {
            return Err(Answer::new(number::STATE, 0, 0));
        }
        let here = self.lines + 1;
        match (self.place == Place::FileTrailer, rest.is_empty()) {
            (true, true) => return Ok((self, None)),
            (true, false) => return Err(Answer::new(number::AFTER_TRAILER, here, 0)),
            (false, true) => return Err(Answer::new(number::UNFINISHED, here, 0)),
            (false, false) => {}
        }
        let ending = Ending::after_line(rest);
        let line = match rest.first_chunk::<50>() {
            Some(line) if ending.fits(self.ending) => line,
            _ => return Err(Answer::new(number::LINE, here, 0)),
        };
        let kind = Kind::of_line(line).ok_or(Answer::new(number::UNKNOWN_RECORD, here, 1))?;
        if !self.allows(kind) {
            return Err(Answer::new(number::PLACE, here, 1));
        }
        self.fields(kind, line)
            .and_then(|record| Ok((self.after(&record, ending)?, Some(record))))
            .map_err(|fault| Answer::new(fault.number, here, fault.column))
    }

    /// The limits of answer 24.
    fn is_possible(&self) -> bool {
        self.lines <= LONGEST_FILE
            && self.items <= Batch::MAX_ITEMS
            && self.total <= Batch::MAX_TOTAL
            && self.accounts <= Batch::MAX_ACCOUNTS
            && self.sequence <= BatchHeader::MAX_SEQUENCE
            && self.fixed <= Batch::MAX_DESCRIPTIONS
            && self.own <= Batch::MAX_DESCRIPTIONS
            && self.closed.items <= Totals::MAX_ITEMS
            && self.closed.amount <= Totals::MAX_AMOUNT
    }

    /// Reads the fields from the left; the first fault is the answer.
    fn fields(&self, kind: Kind, line: &[u8; 50]) -> Result<Record, Fault> {
        let mut fields = Fields::after_code(line);
        let record = match kind {
            Kind::FileHeader => Record::FileHeader(file_header(&mut fields)?),
            Kind::BatchHeader(variant) => {
                Record::BatchHeader(self.batch_header(variant, &mut fields)?)
            }
            Kind::FixedDescription => {
                let text = fields.next::<32>().filled()?;
                fields.filler::<13>()?;
                Record::FixedDescription(text)
            }
            Kind::OrderingParty => Record::OrderingParty(self.ordering_party(&mut fields)?),
            Kind::Transaction => Record::Transaction(self.transaction(&mut fields)?),
            Kind::PayerName => Record::PayerName(name(&mut fields)?),
            Kind::BeneficiaryName => Record::BeneficiaryName(name(&mut fields)?),
            Kind::PayerCity => Record::PayerCity(fields.next::<45>().printable()?),
            Kind::BeneficiaryCity => Record::BeneficiaryCity(fields.next::<45>().printable()?),
            Kind::Reference => {
                let text = fields.next::<16>().filled()?;
                fields.filler::<29>()?;
                Record::Reference(text)
            }
            Kind::Description => {
                let text = fields.next::<32>().filled()?;
                fields.filler::<13>()?;
                Record::Description(text)
            }
            Kind::BatchTrailer => Record::BatchTrailer(self.batch_trailer(&mut fields)?),
            Kind::FileTrailer => {
                fields.filler::<45>()?;
                Record::FileTrailer
            }
        };
        Ok(record)
    }

    fn batch_header(&self, variant: Variant, fields: &mut Fields) -> Result<BatchHeader, Fault> {
        let is_first = self.place == Place::FileHeader;

        let field = fields.next::<2>();
        let group = Group::from_code(&field.filled()?).ok_or(field.fault(number::VALUE))?;
        field.require(is_first || group == self.group, number::DIFFERS)?;

        let account = fields.next::<10>().ordering_account()?;

        let field = fields.next::<4>();
        let sequence = field.digits()? as u16;
        field.require(sequence != 0, number::VALUE)?;
        field.require(is_first || sequence == self.sequence + 1, number::DIFFERS)?;

        fields.next::<3>().constant(BatchHeader::CURRENCY)?;

        let field = fields.next::<16>();
        let identification = match variant {
            Variant::B => field.blank()?,
            Variant::C => field.filled()?,
        };
        fields.filler::<10>()?;
        Ok(BatchHeader { variant, group, account, sequence, identification })
    }

    fn ordering_party(&self, fields: &mut Fields) -> Result<OrderingParty, Fault> {
        let field = fields.next::<1>();
        let name_code = field.digits()? as u8;
        field.require(matches!(name_code, 1 | 2), number::VALUE)?;
        field.require(name_code == 1 || self.group == Group::Payments, number::DIFFERS)?;

        let desired = fields.next::<6>().optional_date()?;
        let name = fields.next::<35>().optional()?;

        let field = fields.next::<1>();
        let test = TestCode::from_code(&field.filled()?).ok_or(field.fault(number::VALUE))?;
        fields.filler::<2>()?;
        Ok(OrderingParty { name_code, desired, name, test })
    }

    fn transaction(&self, fields: &mut Fields) -> Result<Transaction, Fault> {
        let field = fields.next::<4>();
        let kind =
            TransactionType::from_code(&field.filled()?).ok_or(field.fault(number::VALUE))?;
        field.require(kind.group() == self.group, number::DIFFERS)?;

        let field = fields.next::<12>();
        let amount = field.digits()?;
        field.require((1..=Transaction::MAX_AMOUNT).contains(&amount), number::VALUE)?;

        let payer = self.party(kind, Group::Payments, fields.next())?;
        let beneficiary = self.party(kind, Group::Debits, fields.next())?;
        fields.filler::<9>()?;
        Ok(Transaction { kind, amount, payer, beneficiary })
    }

    /// The account of a payer or beneficiary: in group `own` the ordering
    /// account, in the other the other party's.
    fn party(&self, kind: TransactionType, own: Group, field: Field<10>) -> Result<u64, Fault> {
        let account = field.account()?;
        if self.group == own {
            field.require(account == self.account, number::DIFFERS)?;
        } else {
            // "0000, 0003 and 1002 to seven-digit accounts only"
            let fits = !kind.is_unchecked() || is_seven_digits(account);
            field.require(fits, number::ORDINARY_ACCOUNT)?;
        }
        Ok(account)
    }

    fn batch_trailer(&self, fields: &mut Fields) -> Result<BatchTrailer, Fault> {
        let field = fields.next::<18>();
        let amount = field.digits()?;
        field.require((1..=Batch::MAX_TOTAL).contains(&amount), number::VALUE)?;
        field.require(amount == self.total, number::TRAILER)?;

        let field = fields.next::<10>();
        let accounts = field.digits()?;
        field.require(accounts == self.accounts, number::TRAILER)?;

        let field = fields.next::<7>();
        let items = field.digits()? as u32;
        field.require((1..=Batch::MAX_ITEMS).contains(&items), number::VALUE)?;
        field.require(items == self.items, number::TRAILER)?;

        fields.filler::<10>()?;
        Ok(BatchTrailer { amount, accounts, items })
    }

    /// The state after an allowed record without faults in its fields. Only a
    /// transaction can still be too much for its batch.
    fn after(mut self, record: &Record, ending: Ending) -> Result<State, Fault> {
        self.lines += 1;
        self.ending = ending;
        self.place = match record {
            Record::FileHeader(_) => Place::FileHeader,
            Record::BatchHeader(header) => {
                self.begin(header);
                Place::BatchHeader
            }
            Record::FixedDescription(_) => {
                self.fixed += 1;
                Place::FixedDescription
            }
            Record::OrderingParty(_) => Place::OrderingParty,
            Record::Transaction(transaction) => {
                self.add(transaction)?;
                Place::Transaction
            }
            Record::PayerName(_) | Record::BeneficiaryName(_) => {
                self.named = true;
                Place::Name
            }
            Record::PayerCity(_) | Record::BeneficiaryCity(_) => Place::City,
            Record::Reference(_) => {
                self.referenced = true;
                Place::Reference
            }
            Record::Description(_) => {
                self.own += 1;
                Place::Description
            }
            Record::BatchTrailer(trailer) => {
                self.close(trailer);
                Place::BatchTrailer
            }
            Record::FileTrailer => Place::FileTrailer,
        };
        Ok(self)
    }

    /// Begins the next batch.
    fn begin(&mut self, header: &BatchHeader) {
        self.group = header.group;
        self.account = header.account;
        self.sequence = header.sequence;
        self.fixed = 0;
        self.items = 0;
        self.total = 0;
        self.accounts = 0;
    }

    /// Counts in the batch that this trailer closes.
    fn close(&mut self, trailer: &BatchTrailer) {
        self.closed.items += u64::from(trailer.items);
        self.closed.amount += trailer.amount;
    }

    /// Begins the next item and counts it in.
    fn add(&mut self, transaction: &Transaction) -> Result<(), Fault> {
        self.items += 1;
        self.total += transaction.amount;
        self.accounts = (self.accounts + transaction.payer + transaction.beneficiary)
            % (Batch::MAX_ACCOUNTS + 1);
        self.unchecked = transaction.kind.is_unchecked();
        self.named = false;
        self.referenced = false;
        self.own = 0;
        if self.items > Batch::MAX_ITEMS {
            Err(Fault { number: number::TOO_MUCH, column: 1 })
        } else if self.total > Batch::MAX_TOTAL {
            Err(Fault { number: number::TOO_MUCH, column: 10 })
        } else {
            Ok(())
        }
    }
}

fn file_header(fields: &mut Fields) -> Result<FileHeader, Fault> {
    let created = fields.next::<6>().date()?;
    fields.next::<8>().constant(FileHeader::FILE_NAME)?;
    let sender = fields.next::<5>().filled()?;

    let field = fields.next::<4>();
    let identification = field.filled()?;
    field.require(identification.iter().all(u8::is_ascii_digit), number::VALUE)?;
    let [day_tens, day_ones, counter @ ..] = identification;
    field.require(counter != *b"00", number::VALUE)?;
    let day = u32::from(day_tens - b'0') * 10 + u32::from(day_ones - b'0');
    field.require(day == created / 10_000, number::DIFFERS)?;

    let field = fields.next::<1>();
    let duplicate = field.digits()? as u8;
    field.require(matches!(duplicate, 1 | 2), number::VALUE)?;
    fields.filler::<21>()?;
    Ok(FileHeader { created, sender, identification, duplicate })
}

fn name(fields: &mut Fields) -> Result<[u8; 35], Fault> {
    let name = fields.next::<35>().filled()?;
    fields.filler::<10>()?;
    Ok(name)
}
