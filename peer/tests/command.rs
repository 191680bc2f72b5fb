//! The command itself: standard input, one file, several files.

mod common;

use std::ffi::OsStr;
use std::fs::File;
use std::io::Write;
use std::os::unix::ffi::OsStrExt;
use std::path::PathBuf;
use std::process::{Command, Output, Stdio};

use common::{file, EXAMPLE, LISTING, NOTHING_CLOSED};

const ACCEPTED: &str = "answer=0\nline=9\ncolumn=0\n";
/// Of the example cut after its seventh line.
const LACKING: &str = "answer=10\nline=8\ncolumn=0\n";
const ACCEPTED_IN_WORDS: &str = "accepted, 9 lines, 2 items, 1525.50\n";
const LACKING_IN_WORDS: &str = "line 8: the file ends before its file trailer (answer 10)\n";
const NO_SUCH_ITEM: &str = "answer=13\nline=9\ncolumn=0\n";

/// A file with this content, and its name.
fn stored(name: &str, content: &[u8]) -> String {
    let path = PathBuf::from(env!("CARGO_TARGET_TMPDIR")).join(name);
    std::fs::write(&path, content).unwrap();
    path.into_os_string().into_string().unwrap()
}

fn peer(arguments: &[&str], input: &[u8]) -> Output {
    let mut child = Command::new(env!("CARGO_BIN_EXE_peer"))
        .args(arguments)
        .stdin(Stdio::piped())
        .stdout(Stdio::piped())
        .stderr(Stdio::piped())
        .spawn()
        .unwrap();
    child.stdin.take().unwrap().write_all(input).unwrap();
    child.wait_with_output().unwrap()
}

/// Status, standard output and standard error.
fn said(arguments: &[&str], input: &[u8]) -> (i32, String, String) {
    let output = peer(arguments, input);
    let text = |bytes| String::from_utf8(bytes).unwrap();
    (output.status.code().unwrap(), text(output.stdout), text(output.stderr))
}

/// This on standard output, and nothing on standard error.
fn out(status: i32, text: impl Into<String>) -> (i32, String, String) {
    (status, text.into(), String::new())
}

fn second_item() -> String {
    let spaces = |width| " ".repeat(width);
    format!(
        "type=0003\namount=2550\npayer=0123456789\nbeneficiary=0000001234\nreference={}\n\
         name=J DE VRIES{}\ndescription1=SALARIS MAART{}\ndescription2={}\ndescription3={}\n\
         description4={}\n{ACCEPTED}",
        spaces(16),
        spaces(14),
        spaces(19),
        spaces(32),
        spaces(32),
        spaces(32)
    )
}

#[test]
fn standard_input_and_one_file_have_no_title() {
    let whole = file(&EXAMPLE);
    let name = stored("one.cli", &whole);
    for (question, expected) in [
        (&["list"][..], LISTING.to_string()),
        (&["item", "1", "2"], second_item()),
        (&["item", "0001", "002"], second_item()),
        (&["rewrite"], String::from_utf8(whole.clone()).unwrap()),
    ] {
        assert_eq!(said(question, &whole), out(0, &expected));
        assert_eq!(said(&[question, &[&name]].concat(), b""), out(0, &expected));
    }
    let in_words = |name: &str| out(0, format!("{name}: {ACCEPTED_IN_WORDS}"));
    assert_eq!(said(&["check"], &whole), in_words("standard input"));
    assert_eq!(said(&["check", &name], b""), in_words(&name));
}

#[test]
fn several_files_each_under_its_name() {
    let whole = stored("several-1.cli", &file(&EXAMPLE));
    let cut = stored("several-2.cli", &file(&EXAMPLE[..7]));
    let header = LISTING.split_inclusive("duplicate=1\n").next().unwrap();
    assert_eq!(
        said(&["list", &whole, &cut], b""),
        out(1, format!("input={whole}\n{LISTING}input={cut}\n{header}{NOTHING_CLOSED}{LACKING}"))
    );
    let item = second_item();
    assert_eq!(
        said(&["item", "1", "2", &cut, &whole, &cut], b""),
        out(1, format!("input={cut}\n{LACKING}input={whole}\n{item}input={cut}\n{LACKING}"))
    );
    assert_eq!(
        said(&["check", &whole, &cut], b""),
        out(1, format!("{whole}: {ACCEPTED_IN_WORDS}{cut}: {LACKING_IN_WORDS}"))
    );
}

#[test]
fn rewriting_names_refused_files_only() {
    let whole = stored("rewrite-1.cli", &file(&EXAMPLE));
    let cut = stored("rewrite-2.cli", &file(&EXAMPLE[..7]));
    let text = String::from_utf8(file(&EXAMPLE)).unwrap();
    assert_eq!(
        said(&["rewrite", &whole, &cut, &whole], b""),
        (1, text.repeat(2), format!("input={cut}\n{LACKING}"))
    );
    assert_eq!(said(&["rewrite", &whole, &whole], b""), out(0, text.repeat(2)));
    let alone = (1, String::new(), LACKING.to_string());
    assert_eq!(said(&["rewrite", &cut], b""), alone);
    assert_eq!(said(&["rewrite"], &file(&EXAMPLE[..7])), alone);
    // City records are left out; the answer counts them.
    let lines = [&EXAMPLE[..7], &["0173BUTRECHT"], &EXAMPLE[7..]].concat();
    assert_eq!(said(&["rewrite"], &file(&lines)), out(0, text));
    let lacking = (1, String::new(), "answer=10\nline=10\ncolumn=0\n".to_string());
    assert_eq!(said(&["rewrite"], &file(&lines[..9])), lacking);
}

#[test]
fn batch_and_item_of_any_size() {
    for (batch, item) in [
        ("0", "1"),
        ("1", "0"),
        ("2", "1"),
        ("1", "3"),
        ("18446744073709551617", "1"),
        ("1", "18446744073709551618"),
        ("99999999999999999999999999999999999999999", "0"),
    ] {
        let none = out(1, NO_SUCH_ITEM);
        assert_eq!(said(&["item", batch, item], &file(&EXAMPLE)), none, "{batch} {item}");
    }
}

#[test]
fn wrong_use_is_status_2() {
    for arguments in
        [&[][..], &["show"], &["item"], &["item", "1"], &["item", "+1", "1"], &["item", "", "1"]]
    {
        let (status, out, errors) = said(arguments, b"");
        assert_eq!((status, out.as_str()), (2, ""), "{arguments:?}");
        assert!(errors.starts_with("usage: ") && errors.ends_with('\n'));
    }
}

#[test]
fn what_cannot_be_read_is_told_and_the_rest_answered() {
    let whole = stored("read-1.cli", &file(&EXAMPLE));
    let cut = stored("read-2.cli", &file(&EXAMPLE[..7]));
    let missing = "no such file";
    let directory = env!("CARGO_TARGET_TMPDIR");
    let names = [missing, &cut, directory, &whole];
    for (question, expected) in [
        (&["check"][..], format!("{cut}: {LACKING_IN_WORDS}{whole}: {ACCEPTED_IN_WORDS}")),
        (&["item", "2", "1"], format!("input={cut}\n{LACKING}input={whole}\n{NO_SUCH_ITEM}")),
        (&["rewrite"], String::from_utf8(file(&EXAMPLE)).unwrap()),
    ] {
        let (status, out, errors) = said(&[question, &names].concat(), b"");
        assert_eq!((status, out), (2, expected));
        let told: Vec<&str> = errors.lines().filter(|line| line.contains(": ")).collect();
        assert!(told[0].starts_with("no such file: No such file or directory"), "{errors}");
        assert!(told[1].starts_with(&format!("{directory}: ")), "{errors}");
        assert_eq!(told.len(), 2);
    }
    for question in [&["list"][..], &["item", "1", "1"], &["rewrite"], &["check"]] {
        let (status, out, errors) = said(&[question, &[missing]].concat(), b"");
        assert_eq!((status, out.as_str(), errors.lines().count()), (2, "", 1));
    }
}

#[test]
fn what_cannot_be_written_is_told() {
    let refused = file(&EXAMPLE[..7]);
    let name = stored("full.cli", &refused);
    let full = || File::options().write(true).open("/dev/full").unwrap();
    for question in [&["list"][..], &["item", "1", "1"], &["check"]] {
        let mut command = Command::new(env!("CARGO_BIN_EXE_peer"));
        let output = command.args(question).arg(&name).stdout(full()).output().unwrap();
        assert_eq!(output.status.code(), Some(2), "{question:?}");
        assert!(output.stderr.starts_with(b"standard output: No space left"));
    }
    let mut command = Command::new(env!("CARGO_BIN_EXE_peer"));
    let status = command.args(["rewrite", &name]).stderr(full()).status().unwrap();
    assert_eq!(status.code(), Some(2));
}

#[test]
fn a_name_stands_as_it_is() {
    let name = OsStr::from_bytes(b"name \xff\t.cli");
    let path = PathBuf::from(env!("CARGO_TARGET_TMPDIR")).join(name);
    std::fs::write(&path, file(&EXAMPLE)).unwrap();
    let mut command = Command::new(env!("CARGO_BIN_EXE_peer"));
    let output = command.arg("check").arg(&path).output().unwrap();
    assert_eq!(output.status.code(), Some(0));
    let expected = [path.as_os_str().as_bytes(), b": ", ACCEPTED_IN_WORDS.as_bytes()].concat();
    assert_eq!(output.stdout, expected);
}
