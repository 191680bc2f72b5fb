//! What is said of a file to somebody who can't look it up: one sentence, and
//! of a refusal the line refused with a mark under the column.

use std::io::{self, Write};

use crate::answer::{number, Answer};
use crate::check::{read, FileRead};
use crate::ending::Ending;
use crate::fields::is_printable;
use crate::records::Totals;
use crate::table::field_name;

/// Prints what there is to say of the file with this name; gives its answer.
pub fn report(name: &[u8], file: &[u8], out: &mut impl Write) -> io::Result<Answer> {
    let read = read(file, |_| {});
    out.write_all(name)?;
    if read.answer.is_accepted() {
        writeln!(out, ": accepted, {} lines, {}", read.answer.line, amounts(read.closed))?;
    } else {
        refusal(&read, out)?;
    }
    Ok(read.answer)
}

/// `2 items, 1525.50`: the items, and the cents as euros.
fn amounts(Totals { items, amount }: Totals) -> String {
    let unit = if items == 1 { "item" } else { "items" };
    format!("{items} {unit}, {}.{:02}", amount / 100, amount % 100)
}

/// What a refusal says after the name.
fn refusal(read: &FileRead, out: &mut impl Write) -> io::Result<()> {
    let FileRead { answer: Answer { number, line, column }, ending, rest, .. } = *read;
    let field = field_name(rest, column.into());
    write!(out, ": line {line}")?;
    if let Some(field) = field {
        write!(out, ", column {column}, {field}")?;
    }
    write!(out, ": {}", words(number))?;
    if number == number::LINE {
        write!(out, ": {}", how(rest, ending))?;
    }
    writeln!(out, " (answer {number})")?;
    if number == number::UNFINISHED {
        return Ok(());
    }
    let whole = if field.is_some() { rest } else { up_to_its_end(rest) };
    writeln!(out, "  {}", shown(whole))?;
    if field.is_some() {
        writeln!(out, "  {:>1$}", '^', usize::from(column))?;
    }
    Ok(())
}

/// What each refusal of a file means.
fn words(answer: u8) -> &'static str {
    match answer {
        number::LINE => "the line is broken",
        number::UNKNOWN_RECORD => "this record does not exist",
        number::PLACE => "this record may not stand here, or a name record is missing before it",
        number::FORM => {
            "the form is wrong: a letter in a number, a strange character, a space first, blank, \
             or not blank"
        }
        number::VALUE => {
            "the value is not allowed: no such date or type, zero, or above its maximum"
        }
        number::ACCOUNT => {
            "the account is wrong: eight digits, an ordering account of seven or fewer, or the \
             eleven check fails"
        }
        number::DIFFERS => {
            "it differs from what came before: group, sequence, own account, name code or day"
        }
        number::TOO_MUCH => "the batch has one item too many, or its total is too large",
        number::TRAILER => "the trailer's number is wrong",
        number::UNFINISHED => "the file ends before its file trailer",
        number::AFTER_TRAILER => "there is something after the file trailer",
        number::ORDINARY_ACCOUNT => {
            "the types 0000, 0003 and 1002 are only for accounts of seven digits or fewer"
        }
        _ => "no file is answered so",
    }
}

/// How the line that `rest` begins with is broken, the first line having
/// ended with `first`.
fn how(rest: &[u8], first: Ending) -> String {
    match up_to_its_end(rest).len() {
        _ if !rest.contains(&10) => format!("the file ends after byte {} of it", rest.len()),
        50 if first == Ending::Ten => {
            "it ends with 13 and 10, the first line with byte 10 alone".into()
        }
        50 => "it ends with byte 10 alone, the first line with 13 and 10".into(),
        length => format!("its length is {length}, not 50"),
    }
}

/// What comes before the first 10, or 13 and 10; all where there is none.
fn up_to_its_end(rest: &[u8]) -> &[u8] {
    match rest.iter().position(|&byte| byte == 10) {
        None => rest,
        Some(end) => rest[..end].strip_suffix(&[13]).unwrap_or(&rest[..end]),
    }
}

/// The first 50 characters, full stops for what can't be printed, without the
/// spaces at the end.
fn shown(line: &[u8]) -> String {
    let printed = |&byte: &u8| if is_printable(byte) { char::from(byte) } else { '.' };
    let text: String = line.iter().take(50).map(printed).collect();
    text.trim_end_matches(' ').to_string()
}

#[cfg(test)]
mod tests {
    use super::*;

    const TEN: &str = "it ends with byte 10 alone, the first line with 13 and 10";
    const THIRTEEN_TEN: &str = "it ends with 13 and 10, the first line with byte 10 alone";

    #[test]
    fn ways_to_be_broken_after_any_first_line() {
        let fifty = "x".repeat(50);
        for (rest, expected) in [
            ("x".to_string(), "the file ends after byte 1 of it"),
            ("x\r".to_string(), "the file ends after byte 2 of it"),
            (format!("{fifty}\r"), "the file ends after byte 51 of it"),
            (format!("{fifty}xxxx"), "the file ends after byte 54 of it"),
            ("\n".to_string(), "its length is 0, not 50"),
            ("\r\n".to_string(), "its length is 0, not 50"),
            ("\n\r".to_string(), "its length is 0, not 50"),
            ("\r\r\n".to_string(), "its length is 1, not 50"),
            (format!("{}\r\nx", &fifty[1..]), "its length is 49, not 50"),
            (format!("{}\nx", &fifty[1..]), "its length is 49, not 50"),
            (format!("{fifty}x\n"), "its length is 51, not 50"),
            (format!("{fifty}\r\r\n"), "its length is 51, not 50"),
            (format!("{fifty}{fifty}\r\n"), "its length is 100, not 50"),
        ] {
            for first in [Ending::Unknown, Ending::ThirteenTen, Ending::Ten] {
                assert_eq!(how(rest.as_bytes(), first), expected, "{rest:?}");
            }
        }
    }

    #[test]
    fn ends_that_the_first_line_has_not() {
        let fifty = "x".repeat(50);
        for (rest, first, expected) in [
            (format!("{fifty}\n"), Ending::ThirteenTen, TEN),
            (format!("{fifty}\n\r"), Ending::ThirteenTen, TEN),
            (format!("{fifty}\n{fifty}\r\n"), Ending::ThirteenTen, TEN),
            (format!("{}\r\n", &fifty[1..]), Ending::ThirteenTen, "its length is 49, not 50"),
            (format!("{fifty}\r\n"), Ending::Ten, THIRTEEN_TEN),
            (format!("{fifty}\r\n\n"), Ending::Ten, THIRTEEN_TEN),
            (format!("{fifty}\r\r\n"), Ending::Ten, "its length is 51, not 50"),
            (format!("\n{}\r\n", &fifty[1..]), Ending::Ten, "its length is 0, not 50"),
        ] {
            assert_eq!(how(rest.as_bytes(), first), expected, "{rest:?}");
        }
    }

    #[test]
    fn items_and_euros() {
        for (items, amount, expected) in [
            (0, 0, "0 items, 0.00"),
            (1, 1, "1 item, 0.01"),
            (1, 5, "1 item, 0.05"),
            (1, 99, "1 item, 0.99"),
            (2, 100, "2 items, 1.00"),
            (2, 152_550, "2 items, 1525.50"),
            (11, 100_009, "11 items, 1000.09"),
            (Totals::MAX_ITEMS, Totals::MAX_AMOUNT, "999900000 items, 453734838068490.99"),
        ] {
            assert_eq!(amounts(Totals { items, amount }), expected);
        }
    }

    #[test]
    fn what_is_shown() {
        assert_eq!(shown(b""), "");
        assert_eq!(shown(&[b' '; 60]), "");
        assert_eq!(shown(b" a \t\r\n~\x7f\x80\xff \0 "), " a ...~... .");
        assert_eq!(shown(&[0; 60]), ".".repeat(50));
        assert_eq!(shown(format!("a{:49}b", "").as_bytes()), "a");
        for byte in 0..=255 {
            let expected = match byte {
                32 => String::new(),
                33..=126 => char::from(byte).to_string(),
                _ => ".".to_string(),
            };
            assert_eq!(shown(&[byte]), expected);
        }
    }

    #[test]
    fn any_answer_has_words_and_any_bytes_are_taken() {
        for number in 0..=255 {
            assert!(!words(number).is_empty());
            for (line, column) in [(0, 0), (1, 1), (9, 50), (u64::MAX, 255)] {
                for rest in [&b""[..], b"\n", b"0001A", &[255; 60]] {
                    let mut out = Vec::new();
                    let answer = Answer { number, line, column };
                    let closed = Totals::default();
                    let read = FileRead { answer, closed, ending: Ending::Unknown, rest };
                    refusal(&read, &mut out).unwrap();
                    assert!(out.ends_with(b"\n"));
                }
            }
        }
    }
}
