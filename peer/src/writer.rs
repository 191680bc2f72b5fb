//! Writing: one record at a time, and a whole file again from its reading.

use crate::answer::{number, Answer};
use crate::check::each;
use crate::ending::Ending;
use crate::records::{BatchHeader, FileHeader, Kind, OrderingParty, Record, Transaction};
use crate::state::State;

/// The bytes of a line written, which ends with 13 and 10.
pub const LINE_LENGTH: usize = Ending::ThirteenTen.line_length();

/// A record to write: every kind but city, trailers without numbers.
#[derive(Clone, Copy, Debug, PartialEq, Eq)]
pub enum Entry {
    FileHeader(FileHeader),
    BatchHeader(BatchHeader),
    FixedDescription([u8; 32]),
    OrderingParty(OrderingParty),
    Transaction(Transaction),
    PayerName([u8; 35]),
    Reference([u8; 16]),
    Description([u8; 32]),
    BeneficiaryName([u8; 35]),
    BatchTrailer,
    FileTrailer,
}

impl Entry {
    /// The entry that writes this record again; a city record has none.
    pub fn from_record(record: &Record) -> Option<Self> {
        Some(match *record {
            Record::FileHeader(header) => Self::FileHeader(header),
            Record::BatchHeader(header) => Self::BatchHeader(header),
            Record::FixedDescription(text) => Self::FixedDescription(text),
            Record::OrderingParty(party) => Self::OrderingParty(party),
            Record::Transaction(transaction) => Self::Transaction(transaction),
            Record::PayerName(name) => Self::PayerName(name),
            Record::Reference(text) => Self::Reference(text),
            Record::Description(text) => Self::Description(text),
            Record::BeneficiaryName(name) => Self::BeneficiaryName(name),
            Record::BatchTrailer(_) => Self::BatchTrailer,
            Record::FileTrailer => Self::FileTrailer,
            Record::PayerCity(_) | Record::BeneficiaryCity(_) => return None,
        })
    }

    fn kind(&self) -> Kind {
        match self {
            Self::FileHeader(_) => Kind::FileHeader,
            Self::BatchHeader(header) => Kind::BatchHeader(header.variant),
            Self::FixedDescription(_) => Kind::FixedDescription,
            Self::OrderingParty(_) => Kind::OrderingParty,
            Self::Transaction(_) => Kind::Transaction,
            Self::PayerName(_) => Kind::PayerName,
            Self::Reference(_) => Kind::Reference,
            Self::Description(_) => Kind::Description,
            Self::BeneficiaryName(_) => Kind::BeneficiaryName,
            Self::BatchTrailer => Kind::BatchTrailer,
            Self::FileTrailer => Kind::FileTrailer,
        }
    }
}

/// The writer so far. What it has written is what a reader would have read,
/// so its memory is a reading state.
#[derive(Clone, Copy, Debug, Default, PartialEq, Eq)]
pub struct Writer {
    pub state: State,
}

/// What writing one record gives.
#[derive(Clone, Copy, Debug, PartialEq, Eq)]
pub struct Written {
    pub answer: Answer,
    /// The next writer; after a refusal the one handed in.
    pub writer: Writer,
    /// How many bytes of the room are filled now.
    pub filled: usize,
}

impl Writer {
    /// A writer before its first record.
    pub const fn new() -> Self {
        Self { state: State::new() }
    }

    /// Writes one record into `room`, of which the first `filled` bytes are
    /// taken. A refusal leaves writer and room untouched.
    pub fn write(self, entry: &Entry, room: &mut [u8], filled: usize) -> Written {
        let line = self.line_of(entry);
        // The reader decides: it sees exactly the line that would be written.
        let read = self.state.line(&line);
        let refused = |answer| Written { answer, writer: self, filled };
        if !read.answer.is_accepted() {
            return refused(read.answer);
        }
        let Some(place) = room.get_mut(filled..).and_then(|left| left.first_chunk_mut()) else {
            return refused(Answer::new(number::ROOM, read.answer.line, 0));
        };
        *place = line;
        Written {
            answer: read.answer,
            writer: Writer { state: read.state },
            filled: filled + LINE_LENGTH,
        }
    }

    fn line_of(&self, entry: &Entry) -> [u8; LINE_LENGTH] {
        let mut line = LineBuilder::new(entry.kind());
        match entry {
            Entry::FileHeader(header) => line
                .number(header.created.into(), 6)
                .text(FileHeader::FILE_NAME)
                .text(&header.sender)
                .text(&header.identification)
                .number(header.duplicate.into(), 1),
            Entry::BatchHeader(header) => line
                .text(header.group.code())
                .number(header.account, 10)
                .number(header.sequence.into(), 4)
                .text(BatchHeader::CURRENCY)
                .text(&header.identification),
            Entry::OrderingParty(party) => line
                .number(party.name_code.into(), 1)
                .number(party.desired.into(), 6)
                .text(&party.name)
                .text(party.test.code()),
            Entry::Transaction(transaction) => line
                .text(transaction.kind.code())
                .number(transaction.amount, 12)
                .number(transaction.payer, 10)
                .number(transaction.beneficiary, 10),
            Entry::FixedDescription(text) | Entry::Description(text) => line.text(text),
            Entry::PayerName(name) | Entry::BeneficiaryName(name) => line.text(name),
            Entry::Reference(text) => line.text(text),
            Entry::BatchTrailer => line
                .number(self.state.total, 18)
                .number(self.state.accounts, 10)
                .number(self.state.items.into(), 7),
            Entry::FileTrailer => &mut line,
        };
        line.bytes
    }
}

/// Fills a line from the left; what isn't filled stays filler.
struct LineBuilder {
    bytes: [u8; LINE_LENGTH],
    at: usize,
}

impl LineBuilder {
    fn new(kind: Kind) -> Self {
        let mut bytes = [b' '; LINE_LENGTH];
        bytes[..5].copy_from_slice(kind.code());
        bytes[50..].copy_from_slice(Ending::ThirteenTen.bytes());
        Self { bytes, at: 5 }
    }

    fn text(&mut self, text: &[u8]) -> &mut Self {
        self.bytes[self.at..self.at + text.len()].copy_from_slice(text);
        self.at += text.len();
        self
    }

    /// Right justified with leading zeros. A number too large for its field
    /// is written as asterisks, which the reader refuses with 4.
    fn number(&mut self, value: u64, width: usize) -> &mut Self {
        let field = &mut self.bytes[self.at..self.at + width];
        let mut rest = value;
        for byte in field.iter_mut().rev() {
            *byte = b'0' + (rest % 10) as u8;
            rest /= 10;
        }
        if rest != 0 {
            field.fill(b'*');
        }
        self.at += width;
        self
    }
}

/// A file written again.
#[derive(Clone, Debug, PartialEq, Eq)]
pub struct Rewritten {
    /// The reader's answer for the file read.
    pub answer: Answer,
    /// Its lines without city records, ended by 13 and 10; of a refused file
    /// nothing.
    pub bytes: Vec<u8>,
}

/// Writes a file again, record by record, from its reading.
pub fn rewrite(file: &[u8]) -> Rewritten {
    let mut bytes = Vec::with_capacity(file.len());
    let mut writer = Writer::new();
    let read = each(file, |_, record| {
        let Some(entry) = Entry::from_record(record) else { return Ok(()) };
        let mut line = [0; LINE_LENGTH];
        let written = writer.write(&entry, &mut line, 0);
        if !written.answer.is_accepted() {
            return Err(written.answer);
        }
        writer = written.writer;
        bytes.extend(line);
        Ok(())
    });
    let answer = read.map_or_else(|refused_by_writer| refused_by_writer, |read| read.answer);
    if !answer.is_accepted() {
        bytes.clear();
    }
    Rewritten { answer, bytes }
}
