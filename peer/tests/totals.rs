//! Items and cents of the closed batches: after every line, in the listing,
//! with every refusal, and at their limits.

mod common;

use common::*;
use peer::*;

const SECOND: &str = "0010B0001234567890002EUR";
const THIRD: &str = "0010B0001234567890003EUR";

const NOTHING: Totals = Totals { items: 0, amount: 0 };

fn closed(items: u64, amount: u64) -> Totals {
    Totals { items, amount }
}

/// Three batches with these amounts: 5; 100 and 45,378,021,608; 7, 8 and 9.
/// Each line has the totals after it.
fn three_batches() -> Vec<(String, Totals)> {
    let item = |cents| transaction("0005", cents, 123_456_789, 1234);
    // 123,456,789 and 1,234 once, twice and three times.
    let sums = [123_458_023, 246_916_046, 370_374_069];
    let (one, two, three) = (closed(1, 5), closed(3, 45_378_021_713), closed(6, 45_378_021_737));
    vec![
        (HEADER.into(), NOTHING),
        (PAYMENTS.into(), NOTHING),
        (PARTY.into(), NOTHING),
        (item(5), NOTHING),
        (trailer(5, sums[0], 1), one),
        (SECOND.into(), one),
        (PARTY.into(), one),
        (item(100), one),
        ("0150AKENMERK".into(), one),
        (item(45_378_021_608), one),
        (trailer(45_378_021_708, sums[1], 2), two),
        (THIRD.into(), two),
        ("0020AVAST".into(), two),
        (PARTY.into(), two),
        (item(7), two),
        (item(8), two),
        ("0160AEIGEN".into(), two),
        (item(9), two),
        (trailer(24, sums[2], 3), three),
        (END.into(), three),
    ]
}

/// The lines of [`three_batches`], of which one is something else.
fn with(number: usize, text: &str) -> Vec<u8> {
    let lines = three_batches();
    let mut lines: Vec<&str> = lines.iter().map(|(text, _)| text.as_str()).collect();
    lines[number - 1] = text;
    file(&lines)
}

/// The last five lines of the listing.
fn last_five(bytes: &[u8]) -> String {
    let text = listing(bytes);
    let lines: Vec<&str> = text.split_inclusive('\n').collect();
    lines[lines.len() - 5..].concat()
}

#[test]
fn the_example() {
    assert_eq!(totals(&file(&EXAMPLE)), closed(2, 152_550));
    assert_eq!(totals(&file(&EXAMPLE[..8])), closed(2, 152_550));
    assert_eq!(totals(&file(&EXAMPLE[..7])), NOTHING);
    assert_eq!(totals(b""), NOTHING);
}

#[test]
fn after_every_line() {
    for end in ["\r\n", "\n"] {
        let mut state = State::new();
        let mut bytes = Vec::new();
        for (text, expected) in three_batches() {
            let line = file_ended(&[&text], end);
            state = state.line(&line).state;
            assert_eq!(state.closed, expected, "{text}");
            bytes.extend(line);
            // The file ends here, or goes on with something wrong.
            for after in [&b""[..], b"x", &file_ended(&["0001A"], end), &[0; 60]] {
                let cut = [&bytes, after].concat();
                assert_eq!(totals(&cut), expected, "{text}");
                let Answer { number, line, column } = check(&cut);
                assert_eq!(
                    last_five(&cut),
                    format!(
                        "file-items={}\nfile-amount={}\nanswer={number}\nline={line}\n\
                         column={column}\n",
                        expected.items, expected.amount
                    )
                );
            }
        }
        assert_eq!(check(&bytes), answer(0, 20, 0));
    }
}

#[test]
fn a_refused_trailer_closes_nothing() {
    for (number, text, column, expected) in [
        (5, trailer(6, 123_458_023, 1), 6, "file-items=0\nfile-amount=0\n"),
        (11, trailer(45_378_021_709, 246_916_046, 2), 6, "file-items=1\nfile-amount=5\n"),
        (11, trailer(45_378_021_708, 246_916_047, 2), 24, "file-items=1\nfile-amount=5\n"),
        (11, trailer(45_378_021_708, 246_916_046, 3), 34, "file-items=1\nfile-amount=5\n"),
        (19, trailer(24, 370_374_069, 6), 34, "file-items=3\nfile-amount=45378021713\n"),
        // The third batch's trailer with the file's totals.
        (19, trailer(45_378_021_737, 0, 6), 6, "file-items=3\nfile-amount=45378021713\n"),
    ] {
        let expected = format!("{expected}answer=9\nline={number}\ncolumn={column}\n");
        assert_eq!(last_five(&with(number, &text)), expected);
    }
    let filler = format!("{}x", trailer(24, 370_374_069, 3));
    let expected = "file-items=3\nfile-amount=45378021713\nanswer=4\nline=19\ncolumn=41\n";
    assert_eq!(last_five(&with(19, &filler)), expected);
}

#[test]
fn the_whole_listing_of_a_file_refused_in_its_third_batch() {
    assert_eq!(
        listing(&with(18, &transaction("0005", 9, 123_456_789, 123_456_788))),
        "file=CLIEOP03\ncreated=150309\nsender=NACHT\nidentification=1501\nduplicate=1\n\
         batch=0001\ngroup=00\naccount=0123456789\nitems=1\namount=5\naccounts=0123458023\n\
         batch=0002\ngroup=00\naccount=0123456789\nitems=2\namount=45378021708\n\
         accounts=0246916046\n\
         file-items=3\nfile-amount=45378021713\nanswer=6\nline=18\ncolumn=32\n"
    );
}

#[test]
fn all_of_them_where_only_the_file_trailer_is_wrong() {
    let all = "file-items=6\nfile-amount=45378021737\n";
    let refused = format!("{all}answer=4\nline=20\ncolumn=6\n");
    assert_eq!(last_five(&with(20, "9999Ax")), refused);
    let longer = [with(20, END), vec![26]].concat();
    assert_eq!(last_five(&longer), format!("{all}answer=11\nline=21\ncolumn=0\n"));
}

#[test]
fn the_writer_has_the_same() {
    let mut writer = Writer::new();
    let mut state = State::new();
    for (text, expected) in three_batches() {
        let read = state.line(&file(&[&text]));
        let entry = Entry::from_record(&read.record.unwrap()).unwrap();
        let written = writer.write(&entry, &mut [0; LINE_LENGTH], 0);
        assert_eq!((written.answer.number, written.writer.state), (0, read.state));
        assert_eq!(written.writer.state.closed, expected);
        // Refused, it stays as it was.
        let refused = writer.write(&entry, &mut [], 0);
        assert_eq!((refused.answer.number, refused.writer), (12, writer));
        (writer, state) = (written.writer, read.state);
    }
}

/// Before the trailer of a batch with one item of five cents.
fn before_the_trailer(closed: Totals) -> State {
    let start = State { closed, ..State::new() };
    three_batches()[..4].iter().fold(start, |state, (text, _)| state.line(&file(&[text])).state)
}

#[test]
fn the_largest_totals() {
    assert_eq!(Totals::MAX_ITEMS, 9_999 * u64::from(Batch::MAX_ITEMS));
    assert_eq!(Totals::MAX_AMOUNT, 9_999 * Batch::MAX_TOTAL);
    let close = file(&[&trailer(5, 123_458_023, 1)]);
    let largest = closed(999_900_000, 45_373_483_806_849_099);
    // Up to the limits, and on from there.
    let below = closed(largest.items - 1, largest.amount - 5);
    let read = before_the_trailer(below).line(&close);
    assert_eq!((read.answer, read.state.closed), (answer(0, 5, 0), largest));
    assert_eq!(read.state.line(&file(&[END])).answer, answer(0, 6, 0));
    // A batch that brings them above has its plain answer, the line after it 24.
    for (items, amount) in [
        (largest.items, 0),
        (0, largest.amount - 4),
        (0, largest.amount),
        (largest.items, largest.amount),
    ] {
        let read = before_the_trailer(closed(items, amount)).line(&close);
        assert_eq!(read.answer, answer(0, 5, 0));
        assert_eq!(read.state.closed, closed(items + 1, amount + 5));
        let next = read.state.line(&file(&[END]));
        assert_eq!((next.answer, next.state), (answer(24, 0, 0), read.state));
    }
}
