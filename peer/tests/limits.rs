//! The limits on items and states, and the end of a file.

mod common;

use common::*;
use peer::*;

#[test]
fn item_100_001() {
    let item = transaction("0005", 1, 123_456_789, 1234);
    let mut lines = vec![HEADER, PAYMENTS, PARTY];
    lines.resize(3 + 100_000, &item);
    let close = trailer(100_000, 123_458_023 * 100_000 % 10_000_000_000, 100_000);
    lines.extend([close.as_str(), END]);
    assert_eq!(check(&file(&lines)), answer(0, 100_005, 0));
    lines[100_003] = &item;
    assert_eq!(check(&file(&lines)), answer(8, 100_004, 1));
    let bad = transaction("0005", 0, 123_456_789, 1234);
    lines[100_003] = &bad;
    assert_eq!(check(&file(&lines)), answer(5, 100_004, 10));

    // Column 1 comes before column 10.
    let state = State {
        lines: 100_003,
        place: Place::Description,
        account: 123_456_789,
        sequence: 1,
        items: 100_000,
        total: Batch::MAX_TOTAL,
        ..State::new()
    };
    assert_eq!(state.line(&file(&[&item])).answer, answer(8, 100_004, 1));
}

#[test]
fn impossible_states() {
    assert_eq!(LONGEST_FILE, 6_999_369_995);
    let line = file(&[HEADER]);
    let state = State::new();
    let items = |items| State { closed: Totals { items, amount: 0 }, ..state };
    let amount = |amount| State { closed: Totals { items: 0, amount }, ..state };
    for good in [
        State { lines: LONGEST_FILE, ..state },
        State { items: 100_000, ..state },
        State { total: Batch::MAX_TOTAL, ..state },
        State { accounts: 9_999_999_999, ..state },
        State { sequence: 9_999, ..state },
        State { fixed: 4, ..state },
        State { own: 4, ..state },
        items(999_900_000),
        amount(45_373_483_806_849_099),
    ] {
        assert_eq!(good.line(&line).answer, answer(0, good.lines + 1, 0));
    }
    for bad in [
        State { lines: LONGEST_FILE + 1, ..state },
        State { lines: u64::MAX, ..state },
        State { items: 100_001, ..state },
        State { total: Batch::MAX_TOTAL + 1, ..state },
        State { accounts: 10_000_000_000, ..state },
        State { sequence: 10_000, ..state },
        State { fixed: 5, ..state },
        State { own: 5, ..state },
        State { own: 5, place: Place::FileTrailer, ..state },
        items(999_900_001),
        items(u64::MAX),
        amount(45_373_483_806_849_100),
        amount(u64::MAX),
    ] {
        for rest in [&line[..], &line[..3], &[]] {
            let refused = LineRead { answer: answer(24, 0, 0), state: bad, record: None, taken: 0 };
            assert_eq!(bad.line(rest), refused);
        }
        let written = Writer { state: bad }.write(&Entry::FileTrailer, &mut [], 0);
        assert_eq!(written.answer, answer(24, 0, 0));
    }
}

#[test]
fn the_end_of_a_file() {
    let whole = file(&EXAMPLE);
    let mut state = State::new();
    for n in 0..9 {
        let read = state.line(&whole[n * 52..]);
        assert_eq!(read.answer, answer(0, n as u64 + 1, 0));
        assert!(read.record.is_some());
        state = read.state;
    }
    let nothing = |answer| LineRead { answer, state, record: None, taken: 0 };
    assert_eq!(state.line(b""), nothing(answer(0, 9, 0)));
    for rest in [&b"\n"[..], &b"\0"[..], &whole[..]] {
        assert_eq!(state.line(rest), nothing(answer(11, 10, 0)));
    }
}
