//! The order of records.

mod common;

use common::*;

#[test]
fn the_order_of_payment_records() {
    let plain = transaction("0005", 1, 123_456_789, 1234);
    let unchecked = transaction("0003", 1, 123_456_789, 1234);
    let close = trailer(1, 123_458_023, 1);
    let (reference, own, name, city) = ("0150AR", "0160AD", "0170BN", "0173B");
    let good = (0, 0);
    let place = (3, 1);
    assert_eq!(in_payments(&[&close]), place);
    assert_eq!(in_payments(&[reference]), place);
    assert_eq!(in_payments(&[&plain, &close]), good);
    assert_eq!(in_payments(&[&plain, &plain]), good);
    assert_eq!(in_payments(&[&plain, name]), place);
    assert_eq!(in_payments(&[&plain, city]), place);
    assert_eq!(in_payments(&[&plain, "0110BN"]), place);
    assert_eq!(in_payments(&[&plain, END]), place);
    assert_eq!(in_payments(&[&plain, HEADER]), place);
    assert_eq!(in_payments(&[&plain, PAYMENTS]), place);
    assert_eq!(in_payments(&[&plain, PARTY]), place);
    assert_eq!(in_payments(&[&plain, "0020AF"]), place);
    assert_eq!(in_payments(&[&plain, reference, reference]), place);
    assert_eq!(in_payments(&[&plain, own, reference]), place);
    assert_eq!(in_payments(&[&plain, own, own, own, own]), good);
    assert_eq!(in_payments(&[&plain, own, own, own, own, own]), place);
    assert_eq!(in_payments(&[&plain, reference, own, own, own]), good);
    assert_eq!(in_payments(&[&plain, reference, own, own, own, own]), place);
    assert_eq!(in_payments(&[&plain, own, own, own, own, &plain, own]), good);
    assert_eq!(in_payments(&[&unchecked, &plain]), place);
    assert_eq!(in_payments(&[&unchecked, &close]), place);
    assert_eq!(in_payments(&[&unchecked, city]), place);
    assert_eq!(in_payments(&[&unchecked, "0110BN"]), place);
    assert_eq!(in_payments(&[&unchecked, reference, own, own, own, name, city, &plain]), good);
    assert_eq!(in_payments(&[&unchecked, name, own]), place);
    assert_eq!(in_payments(&[&unchecked, name, reference]), place);
    assert_eq!(in_payments(&[&unchecked, name, name]), place);
    assert_eq!(in_payments(&[&unchecked, name, "0113B"]), place);
    assert_eq!(in_payments(&[&unchecked, name, city, city]), place);
    assert_eq!(in_payments(&[&unchecked, name, city, own]), place);
    assert_eq!(in_payments(&[&unchecked, name, &unchecked, &plain]), place);
}

#[test]
fn the_order_of_debit_records() {
    let plain = transaction("1001", 1, 1234, 123_456_789);
    let unchecked = transaction("1002", 1, 1234, 123_456_789);
    let close = trailer(1, 123_458_023, 1);
    let (reference, own, name, city) = ("0150AR", "0160AD", "0110BN", "0113B");
    let good = (0, 0);
    let place = (3, 1);
    assert_eq!(in_debits(&[&plain, &close]), good);
    assert_eq!(in_debits(&[&plain, name]), place);
    assert_eq!(in_debits(&[&plain, "0170BN"]), place);
    assert_eq!(in_debits(&[&plain, city]), place);
    assert_eq!(in_debits(&[&plain, own, reference]), place);
    assert_eq!(in_debits(&[&plain, reference, reference]), place);
    assert_eq!(in_debits(&[&plain, reference, own, own, own, &plain]), good);
    assert_eq!(in_debits(&[&plain, reference, own, own, own, own]), place);
    assert_eq!(in_debits(&[&plain, own, own, own, own, own]), place);
    assert_eq!(in_debits(&[&unchecked, own]), place);
    assert_eq!(in_debits(&[&unchecked, reference]), place);
    assert_eq!(in_debits(&[&unchecked, &plain]), place);
    assert_eq!(in_debits(&[&unchecked, &close]), place);
    assert_eq!(in_debits(&[&unchecked, "0170BN"]), place);
    assert_eq!(in_debits(&[&unchecked, name, city, reference, own, own, own, &plain]), good);
    assert_eq!(in_debits(&[&unchecked, name, own, own, own, own, &plain]), good);
    assert_eq!(in_debits(&[&unchecked, name, own, own, own, own, own]), place);
    assert_eq!(in_debits(&[&unchecked, name, name]), place);
    assert_eq!(in_debits(&[&unchecked, name, "0173B"]), place);
    assert_eq!(in_debits(&[&unchecked, name, city, city]), place);
    assert_eq!(in_debits(&[&unchecked, name, own, city]), place);
    assert_eq!(in_debits(&[&unchecked, name, own, name]), place);
    assert_eq!(in_debits(&[&unchecked, name, reference, city]), place);
}

#[test]
fn the_order_of_the_rest() {
    let place = (3, 1);
    for line in EXAMPLE.iter().skip(1) {
        assert_eq!(last(&[line]), place);
    }
    for line in EXAMPLE.iter().filter(|line| !line.starts_with("0010")) {
        assert_eq!(last(&[HEADER, line]), place);
    }
    assert_eq!(last(&[HEADER, PAYMENTS, PAYMENTS]), place);
    assert_eq!(last(&[HEADER, PAYMENTS, PARTY, PARTY]), place);
    assert_eq!(last(&[HEADER, PAYMENTS, PARTY, "0020AF"]), place);
    let fixed = ["0020AF"; 5];
    assert_eq!(last(&[&[HEADER, PAYMENTS], &fixed[..4]].concat()), (0, 0));
    assert_eq!(last(&[&[HEADER, PAYMENTS], &fixed[..5]].concat()), place);
    for code in ["0001B", "0010A", "0020B", "0113A", "9999B", "     ", "0180A", "0001a"] {
        assert_eq!(last(&[code]), (2, 1));
    }
    // Code before place, place before fields.
    assert_eq!(last(&[HEADER, "0150A\u{1}"]), place);
    assert_eq!(last(&[HEADER, "0150B\u{1}"]), (2, 1));
}
