//! The writer, one record at a time.

mod common;

use common::*;
use peer::*;

const FIRST: FileHeader =
    FileHeader { created: 150309, sender: *b"NACHT", identification: *b"1501", duplicate: 1 };

const BATCH: BatchHeader = BatchHeader {
    variant: Variant::B,
    group: Group::Payments,
    account: 123_456_789,
    sequence: 9_999,
    identification: [b' '; 16],
};

#[test]
fn what_the_reader_refuses() {
    let writer = Writer::new();
    let refused = |entry: Entry, expected: Answer| {
        let mut room = [7; 52];
        let written = writer.write(&entry, &mut room, 0);
        assert_eq!(written, Written { answer: expected, writer, filled: 0 });
        assert_eq!(room, [7; 52]);
    };
    refused(Entry::FileTrailer, answer(3, 1, 1));
    refused(Entry::BatchTrailer, answer(3, 1, 1));
    refused(Entry::Description([b' '; 32]), answer(3, 1, 1));
    refused(Entry::FileHeader(FileHeader { created: 1_150_309, ..FIRST }), answer(4, 1, 6));
    refused(Entry::FileHeader(FileHeader { created: 310_409, ..FIRST }), answer(5, 1, 6));
    refused(Entry::FileHeader(FileHeader { duplicate: 10, ..FIRST }), answer(4, 1, 29));
    refused(Entry::FileHeader(FileHeader { duplicate: 3, ..FIRST }), answer(5, 1, 29));
    refused(Entry::FileHeader(FileHeader { sender: *b" X   ", ..FIRST }), answer(4, 1, 20));

    let ended = Writer { state: State { lines: 9, place: Place::FileTrailer, ..State::new() } };
    for entry in [Entry::FileTrailer, Entry::FileHeader(FIRST)] {
        assert_eq!(ended.write(&entry, &mut [], 0).answer, answer(11, 10, 0));
    }
}

#[test]
fn an_unchecked_type_with_an_ordinary_account() {
    let other = |kind, account| match kind {
        TransactionType::Debit | TransactionType::UncheckedDebit => {
            Transaction { kind, amount: 1, payer: account, beneficiary: 123_456_789 }
        }
        _ => Transaction { kind, amount: 1, payer: 123_456_789, beneficiary: account },
    };
    for (kind, column) in [
        (TransactionType::UncheckedCreditor, 32),
        (TransactionType::UncheckedSalary, 32),
        (TransactionType::UncheckedDebit, 22),
    ] {
        let state = State {
            lines: 3,
            place: Place::OrderingParty,
            group: kind.group(),
            account: 123_456_789,
            ..State::new()
        };
        let writer = Writer { state };
        let write =
            |account| writer.write(&Entry::Transaction(other(kind, account)), &mut [7; 52], 0);
        for account in [123_456_789, 1_000_000_001] {
            let refused = Written { answer: answer(14, 4, column), writer, filled: 0 };
            assert_eq!(write(account), refused);
        }
        assert_eq!(write(9_999_999).answer, answer(0, 4, 0));
        assert_eq!(write(10_000_000).answer, answer(6, 4, column));
        assert_eq!(write(10_000_000_000).answer, answer(4, 4, column));
    }
}

#[test]
fn room_comes_last() {
    let writer = Writer::new();
    let mut room = [0; 104];
    for filled in [53, 104, 105, usize::MAX] {
        let written = writer.write(&Entry::FileHeader(FIRST), &mut room, filled);
        assert_eq!(written, Written { answer: answer(12, 1, 0), writer, filled });
        let written = writer.write(&Entry::FileTrailer, &mut room, filled);
        assert_eq!(written.answer, answer(3, 1, 1));
    }
    assert_eq!(room, [0; 104]);
}

#[test]
fn two_records() {
    let mut room = [0; 104];
    let written = Writer::new().write(&Entry::FileHeader(FIRST), &mut room, 52);
    assert_eq!((written.answer, written.filled), (answer(0, 1, 0), 104));
    assert_eq!(room[..52], [0; 52]);
    assert_eq!(room[52..], file(&[HEADER]));

    let mut second =
        |batch, filled| written.writer.write(&Entry::BatchHeader(batch), &mut room, filled).answer;
    assert_eq!(second(BatchHeader { sequence: 10_000, ..BATCH }, 104), answer(4, 2, 18));
    assert_eq!(second(BatchHeader { account: 10_000_000_000, ..BATCH }, 104), answer(4, 2, 8));
    assert_eq!(second(BATCH, 104), answer(12, 2, 0));
    assert_eq!(second(BATCH, 0), answer(0, 2, 0));
    assert_eq!(room[..52], file(&["0010B0001234567899999EUR"]));
}
