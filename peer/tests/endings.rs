//! The two line ends: the first line fixes which.

mod common;

use common::*;
use peer::*;

const ENDS: [(&str, Ending, usize); 2] =
    [("\r\n", Ending::ThirteenTen, 52), ("\n", Ending::Ten, 51)];

/// The example with a city, so that it isn't written again as it is.
fn with_city() -> Vec<&'static str> {
    [&EXAMPLE[..7], &["0173BUTRECHT"], &EXAMPLE[7..]].concat()
}

/// The state after these lines, accepted one by one.
fn state_after(lines: &[&str], end: &str) -> State {
    lines.iter().fold(State::new(), |state, line| {
        let read = state.line(&file_ended(&[line], end));
        assert_eq!(read.answer.number, 0);
        read.state
    })
}

#[test]
fn both_ends_have_the_same_answers() {
    for (end, ..) in ENDS {
        let whole = file_ended(&EXAMPLE, end);
        assert_eq!(check(&whole), answer(0, 9, 0));
        assert_eq!(listing(&whole), LISTING);
        for (batch, number) in [(1, 1), (1, 2), (1, 3), (2, 1)] {
            let (mut room, mut expected) = ([7; 128], [7; 128]);
            let found = item(&whole, batch, number, &mut room);
            assert_eq!(found, item(&file(&EXAMPLE), batch, number, &mut expected));
            assert_eq!(room, expected);
        }
        for (at, line) in EXAMPLE.iter().enumerate() {
            let mut lines = EXAMPLE.to_vec();
            lines[at] = "0001Ax";
            assert_eq!(check(&file_ended(&lines, end)), check(&file(&lines)), "{line}");
        }
    }
}

#[test]
fn written_again_with_13_and_10() {
    for (end, ..) in ENDS {
        for (lines, count) in [(EXAMPLE.to_vec(), 9), (with_city(), 10)] {
            let again = rewrite(&file_ended(&lines, end));
            let expected = Rewritten { answer: answer(0, count, 0), bytes: file(&EXAMPLE) };
            assert_eq!(again, expected);
        }
        let refused = rewrite(&file_ended(&EXAMPLE[..8], end));
        assert_eq!(refused, Rewritten { answer: answer(10, 9, 0), bytes: vec![] });
    }
}

#[test]
fn another_end_later_is_a_broken_line() {
    for [(first, ..), (other, ..)] in [ENDS, [ENDS[1], ENDS[0]]] {
        for at in 1..9 {
            let before = file_ended(&EXAMPLE[..at], first);
            let line = file_ended(&EXAMPLE[at..=at], other);
            let after = file_ended(&EXAMPLE[at + 1..], first);
            let refused = answer(1, at as u64 + 1, 0);
            assert_eq!(check(&[&before[..], &line, &after].concat()), refused);
            assert_eq!(check(&[&before[..], &file_ended(&EXAMPLE[at..], other)].concat()), refused);
            // Before 2 and 3.
            for code in ["xxxxx", HEADER] {
                assert_eq!(check(&[&before[..], &file_ended(&[code], other)].concat()), refused);
            }
        }
    }
}

#[test]
fn ends_that_are_none() {
    for (first, _, length) in ENDS {
        for end in ["\n\r", "\r\r", "\n\n", "  ", "\r ", " \n", "\r", "", "\r\r\n", " \r\n"] {
            if end.starts_with(first) {
                continue;
            }
            let mut bytes = file_ended(&EXAMPLE, first);
            bytes.splice(2 * length - first.len()..2 * length, end.bytes());
            assert_eq!(check(&bytes), answer(1, 2, 0), "{end:?}");
            // Before 2, before 3.
            bytes[length..length + 5].copy_from_slice(b"xxxxx");
            assert_eq!(check(&bytes), answer(1, 2, 0));
        }
    }
    for end in ["\r\r", "  ", "\r ", " \n", "\r", "", "\r\r\n", " \r\n"] {
        assert_eq!(check(&file_ended(&EXAMPLE, end)), answer(1, 1, 0));
    }
}

#[test]
fn an_accepted_line_fixes_the_end_and_says_its_length() {
    for (end, ending, length) in ENDS {
        let mut state = State::new();
        assert_eq!(state.ending, Ending::Unknown);
        for at in 0..9 {
            let read = state.line(&file_ended(&EXAMPLE[at..], end));
            assert_eq!((read.answer, read.taken), (answer(0, at as u64 + 1, 0), length));
            assert_eq!(read.state.ending, ending);
            state = read.state;
        }
        let finished = LineRead { answer: answer(0, 9, 0), state, record: None, taken: 0 };
        assert_eq!(state.line(b""), finished);
    }
}

#[test]
fn a_refused_line_fixes_nothing() {
    let start = State::new();
    for line in ["0002A", END, "0001A150309CLIEOP03NACHT14011", "0001A"] {
        for (end, ..) in ENDS {
            let read = start.line(&file_ended(&[line], end));
            assert!(read.answer.number > 1);
            assert_eq!((read.state, read.record, read.taken), (start, None, 0));
        }
    }
}

#[test]
fn a_state_without_an_end_takes_either() {
    for (before, ..) in ENDS {
        for at in 0..9 {
            let open = State { ending: Ending::Unknown, ..state_after(&EXAMPLE[..at], before) };
            for (end, ending, length) in ENDS {
                let read = open.line(&file_ended(&EXAMPLE[at..], end));
                assert_eq!((read.answer.number, read.taken), (0, length));
                assert_eq!(read.state.ending, ending);
            }
            let broken = open.line(format!("{:<50}\rx", EXAMPLE[at]).as_bytes());
            assert_eq!((broken.answer.number, broken.state), (1, open));
        }
    }
}

#[test]
fn a_last_line_without_its_10() {
    for (end, _, length) in ENDS {
        let whole = file_ended(&EXAMPLE, end);
        assert_eq!(check(&whole[..whole.len() - 1]), answer(1, 9, 0));
        for cut in 0..whole.len() {
            let number = if cut % length == 0 { 10 } else { 1 };
            assert_eq!(check(&whole[..cut]), answer(number, (cut / length) as u64 + 1, 0));
        }
        assert_eq!(check(&[&whole[..], b"\n"].concat()), answer(11, 10, 0));
    }
}

#[test]
fn thirteen_as_the_last_character() {
    // The column of the field that column 50 stands in.
    let columns = [30, 41, 38, 49, 42, 42, 41, 41, 6];
    for (at, column) in columns.into_iter().enumerate() {
        let line = format!("{:<49}\r\n", EXAMPLE[at]).into_bytes();
        let number = at as u64 + 1;
        let in_tens = [file_ended(&EXAMPLE[..at], "\n"), line.clone()].concat();
        assert_eq!(check(&in_tens), answer(4, number, column));
        if at > 0 {
            assert_eq!(check(&[file(&EXAMPLE[..at]), line].concat()), answer(1, number, 0));
        }
    }
}

#[test]
fn the_writer_where_10_is_fixed() {
    let header =
        FileHeader { created: 150309, sender: *b"NACHT", identification: *b"1501", duplicate: 1 };
    for at in 0..9 {
        let state = State { ending: Ending::Ten, ..state_after(&EXAMPLE[..at], "\n") };
        let writer = Writer { state };
        for entry in [Entry::FileHeader(header), Entry::FileTrailer, Entry::Reference([b' '; 16])] {
            let mut room = [7; 52];
            let written = writer.write(&entry, &mut room, 0);
            let refused = Written { answer: answer(1, at as u64 + 1, 0), writer, filled: 0 };
            assert_eq!((written, room), (refused, [7; 52]));
            assert_eq!(writer.write(&entry, &mut [], 0), refused);
        }
    }
    let after = |state| Writer { state }.write(&Entry::FileTrailer, &mut [0; 52], 0).answer;
    assert_eq!(after(state_after(&EXAMPLE, "\n")), answer(11, 10, 0));
    assert_eq!(after(State { own: 5, ending: Ending::Ten, ..State::new() }), answer(24, 0, 0));
    assert_eq!(after(state_after(&EXAMPLE[..8], "\r\n")), answer(0, 9, 0));

    let mut room = [0; 52];
    let first = Writer::new().write(&Entry::FileHeader(header), &mut room, 0);
    assert_eq!(first.writer.state.ending, Ending::ThirteenTen);
}
