//! What `check` prints: of every answer, of lines broken in every way, and the
//! line refused as it stands.

mod common;

use common::*;
use peer::*;

/// What is printed of these bytes under the name `it`.
fn said(bytes: &[u8]) -> String {
    let mut out = Vec::new();
    assert_eq!(report(b"it", bytes, &mut out).unwrap(), check(bytes));
    String::from_utf8(out).unwrap()
}

/// What is printed of these lines.
fn of_lines(lines: &[&str]) -> String {
    said(&file(lines))
}

/// What is printed of the example with these bytes from line 3 on.
fn third(bytes: &[u8]) -> String {
    third_ended("\r\n", bytes)
}

/// The same where the lines before them end so.
fn third_ended(end: &str, bytes: &[u8]) -> String {
    said(&[&file_ended(&EXAMPLE[..2], end), bytes].concat())
}

#[test]
fn accepted() {
    assert_eq!(of_lines(&EXAMPLE), "it: accepted, 9 lines, 2 items, 1525.50\n");
    for (cents, euros) in
        [(1, "0.01"), (5, "0.05"), (100, "1.00"), (45_378_021_608, "453780216.08")]
    {
        let item = transaction("0005", cents, 123_456_789, 1234);
        let close = trailer(cents, 123_458_023, 1);
        assert_eq!(
            of_lines(&[HEADER, PAYMENTS, PARTY, &item, &close, END]),
            format!("it: accepted, 6 lines, 1 item, {euros}\n")
        );
    }
}

#[test]
fn the_example_refused_at_its_trailer() {
    let mut lines = EXAMPLE;
    lines[7] = "9990A00000000000015255003580259230000002";
    assert_eq!(
        of_lines(&lines),
        "it: line 8, column 24, total accounts: the trailer's number is wrong (answer 9)\n  \
         9990A00000000000015255003580259230000002\n                         ^\n"
    );
    lines[7] = "9990A00000000000015255003580259220000001";
    assert_eq!(
        of_lines(&lines),
        "it: line 8, column 34, items: the trailer's number is wrong (answer 9)\n  \
         9990A00000000000015255003580259220000001\n                                   ^\n"
    );
}

/// The example's first lines and then `line`, refused on it as `expected`.
fn refused(before: usize, line: &str, column: usize, expected: &str) {
    let number = before + 1;
    let mark = " ".repeat(column - 1);
    assert_eq!(
        of_lines(&[&EXAMPLE[..before], &[line]].concat()),
        format!("it: line {number}, column {column}, {expected}\n  {line}\n  {mark}^\n")
    );
}

#[test]
fn answers_2_to_7() {
    refused(0, "0002A", 1, "code and variant: this record does not exist (answer 2)");
    refused(
        2,
        "9999A",
        1,
        "code and variant: this record may not stand here, or a name record is missing before it \
         (answer 3)",
    );
    refused(
        3,
        "0030B1000000                                   P x",
        49,
        "filler: the form is wrong: a letter in a number, a strange character, a space first, \
         blank, or not blank (answer 4)",
    );
    refused(
        3,
        "0030B1300209                                   P",
        7,
        "desired date: the value is not allowed: no such date or type, zero, or above its maximum \
         (answer 5)",
    );
    refused(
        1,
        "0010B0001234567880001EUR",
        8,
        "ordering account: the account is wrong: eight digits, an ordering account of seven or \
         fewer, or the eleven check fails (answer 6)",
    );
    refused(
        0,
        "0001A150309CLIEOP03NACHT14011",
        25,
        "identification: it differs from what came before: group, sequence, own account, name \
         code or day (answer 7)",
    );
}

#[test]
fn answer_14() {
    refused(
        5,
        "0100A000300000000255001234567890123456789",
        32,
        "beneficiary: the types 0000, 0003 and 1002 are only for accounts of seven \
         digits or fewer (answer 14)",
    );
}

#[test]
fn answer_8() {
    const WORDS: &str = "the batch has one item too many, or its total is too large (answer 8)";
    let largest = transaction("0005", 45_378_021_608, 123_456_789, 1);
    let more = transaction("0005", 102, 123_456_789, 1);
    let lines = [&[HEADER, PAYMENTS, PARTY][..], &[largest.as_str(); 100], &[&more]].concat();
    let mark = format!("{:9}^", "");
    assert_eq!(
        of_lines(&lines),
        format!("it: line 104, column 10, amount: {WORDS}\n  {more}\n  {mark}\n")
    );
    let cent = transaction("0005", 1, 123_456_789, 1);
    let lines = [&[HEADER, PAYMENTS, PARTY][..], &vec![cent.as_str(); 100_001]].concat();
    assert_eq!(
        of_lines(&lines),
        format!("it: line 100004, column 1, code and variant: {WORDS}\n  {cent}\n  ^\n")
    );
}

#[test]
fn answer_10_has_no_line() {
    const WORDS: &str = "the file ends before its file trailer (answer 10)";
    let lacking = |line| format!("it: line {line}: {WORDS}\n");
    assert_eq!(said(b""), lacking(1));
    assert_eq!(of_lines(&EXAMPLE[..8]), lacking(9));
}

#[test]
fn answer_11_shows_what_comes_after() {
    for (after, shown) in [
        (&b"\x1a"[..], "."),
        (b"\n", ""),
        (b"\r\n", ""),
        (b"\r", "."),
        (b"   ", ""),
        (b" \0 ", " ."),
        (b"a\r\r\nb\r\n", "a."),
        (&file(&["9999A"]), "9999A"),
        (&[b'x'; 60], &"x".repeat(50)),
    ] {
        assert_eq!(
            said(&[&file(&EXAMPLE), after].concat()),
            format!(
                "it: line 10: there is something after the file trailer (answer 11)\n  {shown}\n"
            )
        );
    }
}

#[test]
fn broken_lines() {
    let whole = file(&EXAMPLE[2..3]);
    let text = String::from_utf8(whole[..50].to_vec()).unwrap();
    let bytes = |text: String| text.into_bytes();
    for (rest, how, shown) in [
        (whole[..30].to_vec(), "the file ends after byte 30 of it", EXAMPLE[2]),
        (whole[..51].to_vec(), "the file ends after byte 51 of it", EXAMPLE[2]),
        (whole[..50].to_vec(), "the file ends after byte 50 of it", EXAMPLE[2]),
        (bytes(text.clone() + "  9999A"), "the file ends after byte 57 of it", EXAMPLE[2]),
        (b"0020A\r".to_vec(), "the file ends after byte 6 of it", "0020A."),
        (b"\0\0\0".to_vec(), "the file ends after byte 3 of it", "..."),
        (vec![0; 5_000], "the file ends after byte 5000 of it", &".".repeat(50)),
        (b"0020ASALARIS\r\n".to_vec(), "its length is 12, not 50", "0020ASALARIS"),
        (b"0020ASALARIS\n".to_vec(), "its length is 12, not 50", "0020ASALARIS"),
        (bytes(text.clone() + " \r\n9999A"), "its length is 51, not 50", EXAMPLE[2]),
        (bytes(text.clone() + "\r\r\n"), "its length is 51, not 50", EXAMPLE[2]),
        (bytes(text.clone() + "x\n"), "its length is 51, not 50", EXAMPLE[2]),
        (b"\n".to_vec(), "its length is 0, not 50", ""),
        (b"\r\n".to_vec(), "its length is 0, not 50", ""),
    ] {
        for end in ["\r\n", "\n"] {
            assert_eq!(third_ended(end, &rest), broken(how, shown));
        }
    }
}

/// What is printed where line 3 is broken.
fn broken(how: &str, shown: &str) -> String {
    format!("it: line 3: the line is broken: {how} (answer 1)\n  {shown}\n")
}

#[test]
fn another_end_than_the_first_line() {
    const TEN: &str = "it ends with byte 10 alone, the first line with 13 and 10";
    const THIRTEEN_TEN: &str = "it ends with 13 and 10, the first line with byte 10 alone";
    let text = format!("{:<50}", EXAMPLE[2]);
    let dots = ".".repeat(50);
    for after in ["", "\r", "\n", "x", &text] {
        let ten = format!("{text}\n{after}");
        assert_eq!(third_ended("\r\n", ten.as_bytes()), broken(TEN, EXAMPLE[2]));
        let thirteen_ten = format!("{text}\r\n{after}");
        assert_eq!(third_ended("\n", thirteen_ten.as_bytes()), broken(THIRTEEN_TEN, EXAMPLE[2]));
    }
    assert_eq!(third_ended("\r\n", &[&[0; 50], &b"\n"[..]].concat()), broken(TEN, &dots));
    assert_eq!(third_ended("\n", &[&[0; 50], &b"\r\n"[..]].concat()), broken(THIRTEEN_TEN, &dots));
}

#[test]
fn thirteen_as_the_last_character() {
    let line = format!("{:<49}\r\n", EXAMPLE[2]);
    let length = broken("its length is 49, not 50", EXAMPLE[2]);
    assert_eq!(third_ended("\r\n", line.as_bytes()), length);
    let form = "it: line 3, column 38, filler: the form is wrong: a letter in a number, a strange \
                character, a space first, blank, or not blank (answer 4)";
    let shown = format!("{:<49}.", EXAMPLE[2]);
    let mark = format!("{:37}^", "");
    assert_eq!(third_ended("\n", line.as_bytes()), format!("{form}\n  {shown}\n  {mark}\n"));
}

#[test]
fn a_refused_line_stands_where_the_lines_before_it_end() {
    for end in ["\r\n", "\n"] {
        let mut lines = EXAMPLE;
        let accepted = "it: accepted, 9 lines, 2 items, 1525.50\n";
        assert_eq!(said(&file_ended(&lines, end)), accepted);
        lines[8] = "9998A";
        assert_eq!(
            said(&file_ended(&lines, end)),
            "it: line 9, column 1, code and variant: this record does not exist (answer 2)\n  \
             9998A\n  ^\n"
        );
    }
}

#[test]
fn strange_bytes_in_a_line_of_50() {
    // A 10 among them doesn't end it: it is refused for what stands there.
    let line = b"0020A\n\r\0\x7f\x80\xffz                                      \r\n";
    assert_eq!(
        third(line),
        "it: line 3, column 6, text: the form is wrong: a letter in a number, a strange character, \
         a space first, blank, or not blank (answer 4)\n  0020A......z\n       ^\n"
    );
    // The mark stands where the line shown has ended already.
    assert_eq!(
        third(&file(&["0020A"])),
        "it: line 3, column 6, text: the form is wrong: a letter in a number, a strange character, \
         a space first, blank, or not blank (answer 4)\n  0020A\n       ^\n"
    );
    assert_eq!(
        third(&file(&[""])),
        "it: line 3, column 1, code and variant: this record does not exist (answer 2)\n  \n  ^\n"
    );
}

/// How many lines are printed, by the answer.
fn printed_lines(answer: Answer) -> usize {
    match answer {
        Answer { number: 0 | 10, .. } => 1,
        Answer { column: 0, .. } => 2,
        _ => 3,
    }
}

#[test]
fn any_cut_and_any_byte() {
    let mut files = Vec::new();
    for whole in [file(&EXAMPLE), file_ended(&EXAMPLE, "\n")] {
        files.extend((0..whole.len()).map(|cut| whole[..cut].to_vec()));
        for (at, byte) in (0..whole.len()).flat_map(|at| [0, 10, 13, 32, 48, 255].map(|n| (at, n)))
        {
            files.push(whole.clone());
            files.last_mut().unwrap()[at] = byte;
        }
    }
    for bytes in files {
        let (answer, text) = (check(&bytes), said(&bytes));
        assert_eq!(text.matches('\n').count(), printed_lines(answer), "{text}");
        assert!(text.bytes().all(|byte| byte == 10 || (32..=126).contains(&byte)));
        let end = if answer.number == 0 { ", 2 items, 1525.50" } else { ")" };
        assert!(text.ends_with('\n') && text.lines().next().unwrap().ends_with(end));
    }
}
