//! `text` and `bytes`: the text of recordings by hand, back to bytes, and what is
//! not understood.

mod common;

use common::{failed, file, in_repository, recording, run, run_on, wrote, TWO};
use milch::cursor::Wrong;
use milch::grammar;
use milch::names::Names;

const TABLE: &str = "table main 0\nscreen 0 standard affinity 1\nscreen 1 single-task affinity 2\n";

fn bytes_of(text: &str) -> Result<Vec<u8>, Wrong> {
    grammar::bytes_of(text, &Names::none())
}

/// The text of these bytes, and back.
fn both(bytes: &[u8], text: &str) {
    wrote(run_on(&["text", "-"], bytes), text);
    assert_eq!(bytes_of(text).as_deref(), Ok(bytes));
}

#[test]
fn the_sample() {
    let sample = in_repository("sample.recording");
    let text = "table main 0\n\
        screen 0 standard affinity 1\n\
        screen 1 standard affinity 1\n\
        screen 2 single-top affinity 1\n\
        screen 3 single-task affinity 2\n\
        screen 4 single-instance affinity 1\n\
        screen 5 standard affinity 2\n\
        launch\nstart 1\nstart 3\nfinish-start 0 NEW_TASK\nback\nback\nback\nback\n";
    wrote(run(&["text", &sample]), text);
    let bytes = std::fs::read(sample).expect("the sample");
    assert_eq!(bytes_of(text), Ok(bytes));
}

#[test]
fn records() {
    let bytes = recording(
        TWO,
        &[
            (1, 7, 0),
            (2, 255, 0xffff_ffff),
            (3, 0, 0x3c02_8000),
            (5, 0, 0),
        ],
    );
    let text = "launch edition 7\n\
        start 255 NEW_TASK|SINGLE_TOP|MULTIPLE_TASK|CLEAR_TOP|REORDER_TO_FRONT|CLEAR_TASK\
        |NO_HISTORY|0x83fd7fff\n\
        finish-start 0 NEW_TASK|SINGLE_TOP|MULTIPLE_TASK|CLEAR_TOP|REORDER_TO_FRONT|CLEAR_TASK\n\
        look\n";
    both(&bytes, &format!("{TABLE}{text}"));
}

/// Bytes that a call does not read stay.
#[test]
fn ignored_bytes() {
    let bytes = recording(TWO, &[(1, 0, 1), (4, 3, 0), (5, 0, 0x0a00_0000)]);
    let text = "launch ignored 00 00 00 01\nback ignored 03 00 00 00 00\n\
        look ignored 00 0a 00 00 00\n";
    both(&bytes, &format!("{TABLE}{text}"));
}

#[test]
fn restores() {
    let mut bytes = recording(TWO, &[(6, 0, 9)]);
    bytes.extend([0, 1, 0, 0, 3, 1, 1, 8, 0x42]);
    bytes.extend(recording(&[], &[(6, 5, 0), (4, 0, 0)]));
    let text = "restore image 00 01 00 00 03 01 01 08 42\nrestore ignored 05 image\nback\n";
    both(&bytes, &format!("{TABLE}{text}"));
    let cut = recording(TWO, &[(6, 0, 13), (4, 0, 0), (5, 0, 0)]);
    let raw = "raw 06 00 00 00 00 0d  # kind 6 without its image; records follow\nback\nlook\n";
    both(&cut, &format!("{TABLE}{raw}"));
    let mut long = recording(TWO, &[(6, 0, 6000)]);
    long.extend(recording(&[], &[(4, 0, 0); 1000]));
    let raw =
        "raw 06 00 00 00 17 70  # kind 6 with a longer image than any session's; records follow\n";
    both(&long, &format!("{TABLE}{raw}{}", "back\n".repeat(1000)));
}

#[test]
fn no_records() {
    let mut bytes = recording(TWO, &[(9, 0, 1)]);
    bytes.extend([4, 0, 1]);
    let text = "raw 09 00 00 00 00 01  # unknown kind 9\nraw 04 00 01  # cut record\n";
    both(&bytes, &format!("{TABLE}{text}"));
    both(&[], "");
    both(&[2, 0, 1], "raw 02 00 01  # no table\n");
    both(
        &[0; 17],
        &format!("raw{}  # no table\nraw 00\n", " 00".repeat(16)),
    );
}

/// A table with refusal 2 stays as it is.
#[test]
fn a_refused_table() {
    both(&[1, 9, 4, 0], "table main 9\nscreen 0 mode 4 affinity 0\n");
}

/// A person may write otherwise than the program does.
#[test]
fn as_a_person_writes() {
    let text = "# two screens\r\n\n  table  main 0 \n\tscreen 0 standard affinity 1\n\
        screen 1 mode 2 affinity 2 # single-task\nlaunch edition 0\n\
        start 1 SINGLE_TOP|NEW_TASK|NEW_TASK\nstart 0 0x10000000\nraw 0A fF";
    let mut bytes = recording(TWO, &[(1, 0, 0), (2, 1, 0x3000_0000), (2, 0, 0x1000_0000)]);
    bytes.extend([0x0a, 0xff]);
    assert_eq!(bytes_of(text), Ok(bytes));
}

/// The text is not understood, and nothing is written.
fn wrong(text: &str, said: &str) {
    let ran = run_on(&["bytes", "-"], text.as_bytes());
    assert_eq!(ran.out, "");
    common::failed(ran, &format!("milch: -:{said}\n"));
}

#[test]
fn wrong_tables() {
    let begins = "expected table or raw, with which a text begins";
    wrong("launch\n", &format!("1:1: {begins}, not 'launch'"));
    wrong("\n table 0", "2:8: expected 'main', not '0'");
    wrong(
        "table main 256",
        "1:12: expected the main screen, 0 to 255, not '256'",
    );
    wrong(
        "table main 0 1",
        "1:14: expected the end of the line, not '1'",
    );
    wrong(
        "table main 0\n",
        "1:13: expected a line 'screen 0 ..' behind the table's, and the line ends",
    );
    wrong("table main 0\nback", "2:1: expected screen, not 'back'");
    wrong("table main 0\nscreen 1", "2:8: expected '0', not '1'");
    wrong(
        "table main 0\nscreen 0 single affinity 1",
        "2:10: expected standard, single-top, single-task, single-instance or mode, not 'single'",
    );
    wrong(
        "table main 0\nscreen 0 mode 0 1",
        "2:17: expected 'affinity', not '1'",
    );
    wrong(
        "raw 00\ntable main 0",
        &format!("2:1: expected {RECORDS}, not 'table'"),
    );
    let rows: String = (0..65)
        .map(|i| format!("screen {i} standard affinity 0\n"))
        .collect();
    wrong(
        &format!("table main 0\n{rows}"),
        "66:8: expected no further screen: a table has 64 at most, not '64'",
    );
}

const RECORDS: &str =
    "launch, start, finish-start, back, look, restore or raw at the start of a line";

/// The same of a record behind the table.
fn wrong_record(line: &str, said: &str) {
    wrong(&format!("{TABLE}{line}\nback\n"), said);
}

#[test]
fn wrong_starts() {
    let screen = "expected a screen, 0 to 255";
    wrong_record("start", &format!("4:6: {screen}, and the line ends"));
    wrong_record("start x", &format!("4:7: {screen}, not 'x'"));
    let flag = "expected a flag, such as NEW_TASK, or 0x and a number";
    wrong_record("start 1 NEW_TASK|NEW", &format!("4:18: {flag}, not 'NEW'"));
    wrong_record(
        "start 1 0x100000000",
        &format!("4:9: {flag}, not '0x100000000'"),
    );
    let end = "expected the end of the line";
    wrong_record("start 1 NEW_TASK 1", &format!("4:18: {end}, not '1'"));
}

#[test]
fn wrong_records() {
    wrong_record("Back", &format!("4:1: expected {RECORDS}, not 'Back'"));
    wrong_record(
        "screens",
        &format!("4:1: expected {RECORDS}, not 'screens'"),
    );
    let ignored = "expected 'ignored' or the end of the line";
    wrong_record("launch 7", &format!("4:8: {ignored}, not '7'"));
    let edition = "expected an edition, 0 to 255";
    wrong_record(
        "launch edition",
        &format!("4:15: {edition}, and the line ends"),
    );
    wrong_record("restore 00", "4:9: expected 'image', not '00'");
    let byte = "expected a byte as two hex digits";
    wrong_record(
        "back ignored 00 00",
        &format!("4:19: {byte}, and the line ends"),
    );
    wrong_record("look ignored 0 0 0 0 0", &format!("4:14: {byte}, not '0'"));
    wrong_record("raw", &format!("4:4: {byte}, and the line ends"));
    wrong_record("raw 00 0g", &format!("4:8: {byte}, not '0g'"));
    // what cannot be seen is made visible, and a long word is cut
    wrong_record("look\0", &format!("4:1: expected {RECORDS}, not 'look\\0'"));
    let long = "x".repeat(41);
    wrong_record(
        &long,
        &format!("4:1: expected {RECORDS}, not '{}..'", &long[1..]),
    );
    // columns are characters
    wrong_record("raw 00 é é", &format!("4:8: {byte}, not 'é'"));
}

/// The last line is wrong: what stands before it is not written either.
#[test]
fn nothing_is_written() {
    let text = format!("{TABLE}{}wrong\n", "back\n".repeat(100_000));
    wrong(&text, &format!("100004:1: expected {RECORDS}, not 'wrong'"));
    let found = grammar::bytes_of_file(b"raw 00\nraw \xff", &Names::none()).expect_err("no text");
    assert_eq!((found.line, found.column), (2, 5));
}

/// Names stand in the place of numbers, and come back; numbers may stand there too.
#[test]
fn names() {
    let names = file("text.names", b"\xef\xbb\xbf# site B\n1 B.home\n");
    let bytes = recording(TWO, &[(1, 0, 0), (2, 1, 0), (3, 0, 0), (2, 9, 0)]);
    let text = "table main 0\nscreen 0 standard affinity 1\nscreen B.home single-task affinity 2\n\
        launch\nstart B.home\nfinish-start 0\nstart 9\n";
    wrote(run_on(&["text", "-", "--names", &names], &bytes), text);
    let numbers = text.replace("B.home", "1");
    for text in [text, &numbers, &format!("\u{feff}{text}")] {
        let read = Names::read("names", "1 B.home\n").expect("names");
        assert_eq!(grammar::bytes_of(text, &read), Ok(bytes.clone()));
    }
    let main = file("main.names", b"0 A.home");
    let text = "table main A.home\nscreen A.home standard affinity 1\n\
        screen 1 single-task affinity 2\n";
    wrote(run_on(&["text", "-", "--names", &main], TWO), text);
    let ran = run_on(&["bytes", "-", "--names", &main], text.as_bytes());
    assert_eq!((ran.status, ran.out.as_bytes()), (0, TWO));
}

#[test]
fn names_that_do_not_fit() {
    let names = file("unfit.names", b"0 A.home\n2 B.home\n");
    let said = format!("milch: {names}:2: 2 is no screen: the table has 2\n");
    failed(run_on(&["text", "-", "--names", &names], TWO), &said);
    let bytes = run_on(&["bytes", "-", "--names", &names], TABLE.as_bytes());
    assert_eq!(bytes.out, "");
    failed(bytes, &said);
    let none = format!("milch: {names}:1: 0 is no screen: the table has 0\n");
    failed(run_on(&["text", "-", "--names", &names], &[]), &none);
    failed(run_on(&["bytes", "-", "--names", &names], b"raw 00"), &none);
    let text = format!("{TABLE}start B.home\n");
    let screen = "expected a screen by its name, or by its number, 0 to 255";
    failed(
        run_on(
            &["bytes", "-", "--names", &file("a.names", b"0 A")],
            text.as_bytes(),
        ),
        &format!("milch: -:4:7: {screen}, not 'B.home'\n"),
    );
}

/// A recording is written whole, or not at all; what is there stays.
#[test]
fn bytes_to_a_file() {
    let place = common::fresh("bytes.recording");
    let text = file("bytes.txt", TABLE.as_bytes());
    wrote(run(&["bytes", &text, "--out", &place]), "");
    assert_eq!(std::fs::read(&place).expect("a file"), TWO);
    let said = format!("milch: {place} is there: --force replaces it\n");
    failed(run(&["bytes", &text, "--out", &place]), &said);
    let more = file("more.txt", format!("{TABLE}back\n").as_bytes());
    wrote(run(&["bytes", &more, "--out", &place, "--force"]), "");
    let bytes = recording(TWO, &[(4, 0, 0)]);
    assert_eq!(std::fs::read(&place).expect("a file"), bytes);
    let bad = file("bad.txt", format!("{TABLE}Back\n").as_bytes());
    assert_eq!(run(&["bytes", &bad, "--out", &place, "--force"]).status, 2);
    assert_eq!(std::fs::read(&place).expect("a file"), bytes);
    let said = format!("milch: {text} is read, and stays\n");
    failed(run(&["bytes", &text, "--out", &text, "--force"]), &said);
    assert_eq!(common::parts(&place), 0);
}
