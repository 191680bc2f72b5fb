//! Answers of document 01 with either line end, asked through the library.

use clieop::{check, item, rewrite, totals, Answer, Item, Totals};

/// Lines filled to 50 with spaces, each with its line end.
fn file(lines: &[&str]) -> Vec<u8> {
    lines.iter().flat_map(|line| format!("{line:50}\r\n").into_bytes()).collect()
}

/// The example of 01's listing.
fn example() -> Vec<u8> {
    let party = format!("0030B1000000{:35}P", "");
    file(&[
        "0001A150309CLIEOP03NACHT15011",
        "0010B0001234567890001EUR",
        "0020ASALARIS MAART",
        &party,
        "0100A000800000015000001234567890111111110",
        "0100A000300000000255001234567890000001234",
        "0170BJ DE VRIES",
        "9990A00000000000015255003580259220000002",
        "9999A",
    ])
}

/// Lines that end with 13, 10, ended by 10 alone.
fn alone(bytes: &[u8]) -> Vec<u8> {
    bytes.iter().copied().filter(|&byte| byte != 13).collect()
}

/// The example with 13, 10, and with 10 alone.
fn examples() -> [Vec<u8>; 2] {
    [example(), alone(&example())]
}

fn answer(number: u8, line: u64, column: u64) -> Answer {
    Answer { number, line, column }
}

/// A text filled with spaces to its width.
fn filled<const N: usize>(text: &str) -> [u8; N] {
    format!("{text:N$}").into_bytes().try_into().unwrap()
}

#[test]
fn the_example_is_accepted() {
    for (bytes, length) in examples().iter().zip([468, 459]) {
        assert_eq!(bytes.len(), length);
        assert_eq!(check(bytes), answer(0, 9, 0));
    }
}

#[test]
fn a_second_line_with_the_other_end_is_broken() {
    let [bytes, other] = examples();
    let mixed = [&bytes[..52], &other[51..2 * 51], &bytes[2 * 52..]].concat();
    let other_mixed = [&other[..51], &bytes[52..2 * 52], &other[2 * 51..]].concat();
    for bytes in [mixed, other_mixed] {
        assert_eq!(check(&bytes), answer(1, 2, 0));
        assert_eq!(totals(&bytes), Err(answer(1, 2, 0)));
        assert_eq!(item(&bytes, 1, 2), Err(answer(1, 2, 0)));
        assert_eq!(rewrite(&bytes, &mut []), Err(answer(1, 2, 0)));
    }
}

#[test]
fn an_unchecked_salary_to_nine_digits_is_refused_at_its_account() {
    let text = String::from_utf8(example()).unwrap();
    let bytes = text.replace("1234567890000001234", "1234567890111111110").into_bytes();
    for bytes in [alone(&bytes), bytes] {
        assert_eq!(check(&bytes), answer(14, 6, 32));
        assert_eq!(totals(&bytes), Err(answer(14, 6, 32)));
        assert_eq!(item(&bytes, 1, 1), Err(answer(14, 6, 32)));
        assert_eq!(rewrite(&bytes, &mut []), Err(answer(14, 6, 32)));
    }
}

#[test]
fn nothing_ends_early_at_line_one() {
    assert_eq!(check(&[]), answer(10, 1, 0));
}

#[test]
fn a_file_cut_in_line_three_is_broken_there() {
    assert_eq!(check(&example()[..2 * 52 + 30]), answer(1, 3, 0));
}

#[test]
fn a_byte_after_the_trailer_is_refused() {
    let mut bytes = example();
    bytes.push(26);
    assert_eq!(check(&bytes), answer(11, 10, 0));
}

#[test]
fn a_wrong_sum_of_accounts_names_its_column() {
    let mut bytes = example();
    bytes[7 * 52 + 32] = b'3';
    assert_eq!(check(&bytes), answer(9, 8, 24));
    assert_eq!(totals(&bytes), Err(answer(9, 8, 24)));
    assert_eq!(item(&bytes, 1, 1), Err(answer(9, 8, 24)));
    assert_eq!(rewrite(&bytes, &mut []), Err(answer(9, 8, 24)));
}

#[test]
fn the_totals_of_the_example_are_those_of_its_batch() {
    for bytes in examples() {
        assert_eq!(totals(&bytes), Ok(Totals { items: 2, amount: 152550 }));
    }
}

#[test]
fn the_totals_of_two_batches_are_their_sums() {
    let bytes = example();
    let text = String::from_utf8(example()).unwrap();
    let second = text.replace("7890001EUR", "7890002EUR").into_bytes();
    let both = [&bytes[..8 * 52], &second[52..]].concat();
    for both in [alone(&both), both] {
        assert_eq!(totals(&both), Ok(Totals { items: 4, amount: 305100 }));
    }
}

#[test]
fn a_file_that_ends_early_has_no_totals_though_its_batch_is_closed() {
    assert_eq!(totals(&example()[..8 * 52]), Err(answer(10, 9, 0)));
}

#[test]
fn a_file_without_cities_is_written_again_byte_for_byte() {
    let bytes = example();
    let mut out = vec![7; bytes.len() + 3];
    assert_eq!(rewrite(&bytes, &mut out), Ok(bytes.len()));
    assert_eq!(&out[..bytes.len()], &bytes[..]);
    assert_eq!(&out[bytes.len()..], [7; 3]);
}

#[test]
fn what_ends_with_10_alone_is_written_again_with_13_10() {
    let mut out = vec![7; 468];
    assert_eq!(rewrite(&alone(&example()), &mut out), Ok(468));
    assert_eq!(out, example());
}

#[test]
fn a_city_record_is_left_out() {
    let bytes = example();
    let city = file(&["0173BUTRECHT"]);
    let with_city = [&bytes[..7 * 52], &city, &bytes[7 * 52..]].concat();
    for with_city in [alone(&with_city), with_city] {
        let mut out = vec![0; bytes.len()];
        assert_eq!(rewrite(&with_city, &mut out), Ok(bytes.len()));
        assert_eq!(out, bytes);
    }
}

#[test]
fn without_room_it_is_12_and_nothing_is_written() {
    for bytes in examples() {
        let mut out = [7; 467];
        assert_eq!(rewrite(&bytes, &mut out), Err(answer(12, 9, 0)));
        assert_eq!(out, [7; 467]);
    }
}

#[test]
fn the_files_own_refusal_comes_before_12() {
    assert_eq!(rewrite(&example()[..52], &mut []), Err(answer(10, 2, 0)));
}

#[test]
fn the_items_of_the_example_are_handed_out() {
    let first = Item {
        kind: 8,
        amount: 150000,
        payer: 123456789,
        beneficiary: 111111110,
        reference: filled(""),
        name: filled(""),
        descriptions: ["SALARIS MAART", "", "", ""].map(filled),
    };
    let second = Item {
        kind: 3,
        amount: 2550,
        beneficiary: 1234,
        name: filled("J DE VRIES"),
        ..first
    };
    for bytes in examples() {
        assert_eq!(item(&bytes, 1, 1), Ok(first));
        assert_eq!(item(&bytes, 1, 2), Ok(second));
    }
}

#[test]
fn no_such_batch_or_item_is_13_with_the_number_of_lines() {
    for (batch, number) in [(0, 1), (1, 0), (1, 3), (2, 1), (u64::MAX, u64::MAX)] {
        assert_eq!(item(&example(), batch, number), Err(answer(13, 9, 0)));
    }
}

#[test]
fn the_files_own_refusal_comes_before_13() {
    assert_eq!(item(&example()[..8 * 52], 2, 1), Err(answer(10, 9, 0)));
    assert_eq!(item(&example()[..2 * 52 + 30], 1, 1), Err(answer(1, 3, 0)));
}

/// Case 8 of 01: two fixed and three own descriptions, with a reference.
#[test]
fn with_a_reference_three_descriptions_are_handed_out() {
    let bytes = example();
    let fixed = file(&["0020ATWEEDE"]);
    let own = file(&["0150AKENMERK 12345678", "0160AEERSTE EIGEN", "0160ATWEEDE EIGEN", "0160ADERDE EIGEN"]);
    let more = [&bytes[..3 * 52], &fixed, &bytes[3 * 52..5 * 52], &own, &bytes[5 * 52..]].concat();
    let handed = item(&more, 1, 1).unwrap();
    assert_eq!(handed.reference, *b"KENMERK 12345678");
    assert_eq!(handed.descriptions, ["SALARIS MAART", "TWEEDE", "EERSTE EIGEN", ""].map(filled));
    assert_eq!(item(&more, 1, 2).unwrap().descriptions, ["SALARIS MAART", "TWEEDE", "", ""].map(filled));
}

#[test]
fn of_a_name_the_first_24_characters_are_handed_out() {
    let bytes = example();
    let name = file(&["0170BABCDEFGHIJKLMNOPQRSTUVWXYZ123456789"]);
    let named = [&bytes[..6 * 52], &name, &bytes[7 * 52..]].concat();
    assert_eq!(item(&named, 1, 2).unwrap().name, *b"ABCDEFGHIJKLMNOPQRSTUVWX");
}
