//! Every case of the paper's section 'Cases', its example listing, items and
//! files written again.

mod common;

use common::*;
use peer::*;

#[test]
fn case_1_and_2_eleven_check() {
    assert!(eleven_check(123_456_789));
    assert!(!eleven_check(123_456_788));
    assert!(eleven_check(1_000_000_001));
    assert!(!eleven_check(1_000_000_000));
    for (account, number, column) in
        [(123_456_789, 0, 0), (123_456_788, 6, 32), (1_000_000_001, 0, 0), (1_000_000_000, 6, 32)]
    {
        let line = transaction("0005", 1, 123_456_789, account);
        assert_eq!(in_payments(&[&line]), (number, column));
    }
}

#[test]
fn case_3_account_kinds() {
    for (payer, number) in [(9_999_999, 0), (10_000_003, 6), (0, 5), (1, 0), (99_999_999, 6)] {
        let line = transaction("1001", 1, payer, 123_456_789);
        assert_eq!(in_debits(&[&line]), (number, if number == 0 { 0 } else { 22 }));
    }
}

#[test]
fn case_4_largest_amount() {
    let line = transaction("0005", 45_378_021_608, 123_456_789, 1);
    assert_eq!(in_payments(&[&line]), (0, 0));
    let line = transaction("0005", 45_378_021_609, 123_456_789, 1);
    assert_eq!(in_payments(&[&line]), (5, 10));
    let line = transaction("0005", 0, 123_456_789, 1);
    assert_eq!(in_payments(&[&line]), (5, 10));
}

#[test]
fn case_5_largest_total() {
    let largest = transaction("0005", 45_378_021_608, 123_456_789, 1);
    let mut lines = vec![largest.as_str(); 100];
    let passes = transaction("0005", 101, 123_456_789, 1);
    lines.push(&passes);
    assert_eq!(in_payments(&lines), (0, 0));
    let one_more = transaction("0005", 1, 123_456_789, 1);
    lines.push(&one_more);
    assert_eq!(in_payments(&lines), (8, 10));
    lines.truncate(100);
    let refused = transaction("0005", 102, 123_456_789, 1);
    lines.push(&refused);
    assert_eq!(in_payments(&lines), (8, 10));
    // A fault in a field comes before it.
    let refused = transaction("0005", 102, 123_456_789, 0);
    lines[100] = &refused;
    assert_eq!(in_payments(&lines), (5, 32));

    // At the maximum the file is accepted.
    let close = trailer(4_537_802_160_901, (123_456_790 * 101) % 10_000_000_000, 101);
    lines[100] = &passes;
    let whole = [&[HEADER, PAYMENTS, PARTY], &lines[..], &[close.as_str(), END]].concat();
    assert_eq!(check(&file(&whole)), answer(0, 106, 0));
    // Above it the trailer's field is 5, not 9.
    let close = trailer(4_537_802_160_902, (123_456_790 * 101) % 10_000_000_000, 101);
    let whole = [&[HEADER, PAYMENTS, PARTY], &lines[..], &[close.as_str(), END]].concat();
    assert_eq!(check(&file(&whole)), answer(5, 105, 6));
}

#[test]
fn case_6_account_sum() {
    for (sum, written) in [(10_000_000_003_u64, "0000000003"), (10_000_000_000, "0000000000")] {
        // An ordering account high enough that a seven-digit account makes
        // up the sum.
        let account = (9_990_000_100..9_999_999_999).find(|&n| eleven_check(n)).unwrap();
        let header = format!("0010B00{account:010}0001EUR");
        let item = transaction("0005", 7, account, sum - account);
        let close = trailer(7, sum % 10_000_000_000, 1);
        let lines = [HEADER, header.as_str(), PARTY, &item, &close, END];
        let bytes = file(&lines);
        assert_eq!(check(&bytes), answer(0, 6, 0));
        assert!(listing(&bytes).contains(&format!("accounts={written}\n")));
        let again = rewrite(&bytes);
        assert_eq!(again.bytes, bytes);
        assert_eq!(&again.bytes[4 * 52 + 23..4 * 52 + 33], written.as_bytes());
        // Any other number is 9.
        let close = trailer(7, sum % 10_000_000_000 + 1, 1);
        let lines = [HEADER, header.as_str(), PARTY, &item, &close, END];
        assert_eq!(check(&file(&lines)), answer(9, 5, 24));
    }
}

#[test]
fn case_7_calendar() {
    for (date, exists) in [
        (290208, true),
        (290200, true),
        (290209, false),
        (310409, false),
        (311299, true),
        (10101, true),
        (101, false),
        (10001, false),
        (11301, false),
        (320101, false),
        (0, false),
    ] {
        assert_eq!(date_exists(date), exists, "{date:06}");
        let line = format!("0001A{date:06}CLIEOP03NACHT{:02}011", date / 10_000);
        assert_eq!(last(&[&line]), if exists { (0, 0) } else { (5, 6) });
        let line = format!("0030B1{date:06}{:35}P", "");
        let zeros_or_exists = exists || date == 0;
        let expected = if zeros_or_exists { (0, 0) } else { (5, 7) };
        assert_eq!(last(&[HEADER, PAYMENTS, &line]), expected);
    }
}

/// A file of one item with these fixed and own descriptions, perhaps a
/// reference.
fn described(fixed: usize, own: usize, reference: bool) -> Vec<u8> {
    let fixed: Vec<String> = (1..=fixed).map(|n| format!("0020AFIXED {n}")).collect();
    let own: Vec<String> = (1..=own).map(|n| format!("0160AOWN {n}")).collect();
    let item = transaction("0005", 7, 123_456_789, 1234);
    let close = trailer(7, 123_458_023, 1);
    let mut lines = vec![HEADER, PAYMENTS];
    lines.extend(fixed.iter().map(String::as_str));
    lines.extend([PARTY, &item]);
    lines.extend(reference.then_some("0150AKENMERK 1"));
    lines.extend(own.iter().map(String::as_str));
    lines.extend([close.as_str(), END]);
    file(&lines)
}

fn merged(bytes: &[u8]) -> [String; 4] {
    let mut room = [0; 130];
    let found = item(bytes, 1, 1, &mut room);
    assert_eq!(found.answer, check(bytes));
    assert_eq!(found.answer.number, 0);
    assert_eq!(room[128..], [0, 0]);
    [0, 1, 2, 3].map(|n| {
        let text = std::str::from_utf8(&room[n * 32..n * 32 + 32]).unwrap();
        text.trim_end().to_string()
    })
}

#[test]
fn case_8_two_fixed_three_own() {
    assert_eq!(merged(&described(2, 3, false)), ["FIXED 1", "FIXED 2", "OWN 1", "OWN 2"]);
    assert_eq!(merged(&described(2, 3, true)), ["FIXED 1", "FIXED 2", "OWN 1", ""]);
}

#[test]
fn case_9_four_fixed_and_a_reference() {
    assert_eq!(merged(&described(4, 0, true)), ["FIXED 1", "FIXED 2", "FIXED 3", ""]);
    assert_eq!(merged(&described(4, 4, false)), ["FIXED 1", "FIXED 2", "FIXED 3", "FIXED 4"]);
    assert_eq!(merged(&described(0, 0, false)), ["", "", "", ""]);
    assert_eq!(merged(&described(0, 4, false)), ["OWN 1", "OWN 2", "OWN 3", "OWN 4"]);
}

#[test]
fn case_10_empty_input() {
    assert_eq!(check(b""), answer(10, 1, 0));
    let expected = "file-items=0\nfile-amount=0\nanswer=10\nline=1\ncolumn=0\n";
    assert_eq!(listing(b""), expected);
    assert_eq!(rewrite(b""), Rewritten { answer: answer(10, 1, 0), bytes: vec![] });
}

#[test]
fn case_11_after_sequence_9999() {
    let item = transaction("0005", 7, 123_456_789, 1234);
    let close = trailer(7, 123_458_023, 1);
    for (sequence, expected) in [("0001", (7, 18)), ("0000", (5, 18)), ("9999", (7, 18))] {
        let next = format!("0010B000123456789{sequence}EUR");
        let lines = [HEADER, "0010B0001234567899999EUR", PARTY, &item, &close, &next];
        assert_eq!(last(&lines), expected);
    }
    let lines = [HEADER, "0010B0001234567899998EUR", PARTY, &item, &close];
    assert_eq!(last(&[&lines[..], &["0010B0001234567899999EUR"]].concat()), (0, 0));
    assert_eq!(last(&[&lines[..], &["0010B0001234567899998EUR"]].concat()), (7, 18));
}

#[test]
fn case_12_cut_and_trailing_bytes() {
    let whole = file(&EXAMPLE);
    assert_eq!(check(&whole[..2 * 52 + 30]), answer(1, 3, 0));
    let mut longer = whole.clone();
    longer.push(26);
    assert_eq!(check(&longer), answer(11, 10, 0));
    for cut in 0..whole.len() {
        let line = (cut / 52) as u64 + 1;
        let number = if cut % 52 == 0 { 10 } else { 1 };
        assert_eq!(check(&whole[..cut]), answer(number, line, 0));
    }
}

#[test]
fn the_example_listing() {
    let whole = file(&EXAMPLE);
    assert_eq!(check(&whole), answer(0, 9, 0));
    assert_eq!(listing(&whole), LISTING);
}

#[test]
fn a_listing_of_a_refused_file() {
    let mut lines = EXAMPLE.to_vec();
    lines.pop();
    lines.push("0010B0001234567890002EUR");
    lines.push("0020A");
    let expected = LISTING.replace("answer=0\nline=9\ncolumn=0\n", "answer=4\nline=10\ncolumn=6\n");
    assert_eq!(listing(&file(&lines)), expected);
    // The trailer refused: only the header's keys.
    let mut lines = EXAMPLE.to_vec();
    lines[7] = "9990A00000000000015255003580259220000001";
    let header = LISTING.split_inclusive("duplicate=1\n").next().unwrap();
    let expected = format!("{header}{NOTHING_CLOSED}answer=9\nline=8\ncolumn=34\n");
    assert_eq!(listing(&file(&lines)), expected);
    // The header refused: only the last five.
    lines[0] = "0001A150309CLIEOP03NACHT15013";
    let expected = format!("{NOTHING_CLOSED}answer=5\nline=1\ncolumn=29\n");
    assert_eq!(listing(&file(&lines)), expected);
    // Trailing spaces stand.
    lines[0] = "0001A150309CLIEOP03N    15012";
    assert!(listing(&file(&lines)).contains("sender=N    \nidentification=1501\nduplicate=2\n"));
}

#[test]
fn items_handed_out() {
    let whole = file(&EXAMPLE);
    let mut room = [b'x'; 128];
    let first = item(&whole, 1, 1, &mut room);
    assert_eq!(first.answer, answer(0, 9, 0));
    assert_eq!(first.kind, Some(TransactionType::Salary));
    assert_eq!((first.amount, first.payer, first.beneficiary), (150_000, 123_456_789, 111_111_110));
    assert_eq!(first.reference, [b' '; 16]);
    assert_eq!(first.name, [b' '; 24]);
    assert_eq!(&room[..64], format!("{:64}", "SALARIS MAART").as_bytes());
    let second = item(&whole, 1, 2, &mut room);
    assert_eq!(second.kind, Some(TransactionType::UncheckedSalary));
    assert_eq!(second.name, *b"J DE VRIES              ");

    let refused = |found: Item, answer: Answer| {
        let nothing = (None, 0, 0, 0, [b' '; 16], [b' '; 24]);
        assert_eq!(found.answer, answer);
        let Item { kind, amount, payer, beneficiary, reference, name, .. } = found;
        assert_eq!((kind, amount, payer, beneficiary, reference, name), nothing);
    };
    let mut room = [b'x'; 127];
    for (b, k) in [(0, 0), (0, 1), (1, 0), (1, 3), (2, 1), (2, 0), (u64::MAX, u64::MAX)] {
        refused(item(&whole, b, k, &mut room), answer(13, 9, 0));
    }
    refused(item(&whole, 1, 1, &mut room), answer(12, 9, 0));
    refused(item(&whole[..100], 1, 1, &mut room), answer(1, 2, 0));
    refused(item(&whole[..104], 0, 0, &mut room), answer(10, 3, 0));
    assert_eq!(room, [b'x'; 127]);
}

#[test]
fn a_name_is_cut_to_24() {
    let item_line = transaction("1002", 7, 1234, 123_456_789);
    let close = trailer(7, 123_458_023, 1);
    let name = "0110BABCDEFGHIJKLMNOPQRSTUVWXYZ123456789";
    let lines = [
        HEADER,
        DEBITS,
        PARTY,
        &item_line,
        name,
        "0113B  Anything ~",
        "0150AREF",
        "0160AOWN",
        &close,
        END,
    ];
    let bytes = file(&lines);
    let mut room = [0; 128];
    let found = item(&bytes, 1, 1, &mut room);
    assert_eq!(found.answer, answer(0, 10, 0));
    assert_eq!(&found.name, b"ABCDEFGHIJKLMNOPQRSTUVWX");
    assert_eq!(&found.reference, b"REF             ");
    // Written again without the city record.
    let again = rewrite(&bytes);
    assert_eq!(again.answer, answer(0, 10, 0));
    assert_eq!(again.bytes, [&bytes[..5 * 52], &bytes[6 * 52..]].concat());
}

#[test]
fn rewriting_a_refused_file() {
    let mut whole = file(&EXAMPLE);
    assert_eq!(rewrite(&whole), Rewritten { answer: answer(0, 9, 0), bytes: whole.clone() });
    whole[6 * 52 + 45] = b'x';
    assert_eq!(rewrite(&whole), Rewritten { answer: answer(4, 7, 41), bytes: vec![] });
    let mut longer = file(&EXAMPLE);
    longer.extend(b"\r\n");
    assert_eq!(rewrite(&longer), Rewritten { answer: answer(11, 10, 0), bytes: vec![] });
}
