//! `picture`: where the page is written, and of which records. What stands in the
//! page is tested beside its text.

mod common;

use std::fs;
use std::process::Command;

use common::{failed, file, fresh, in_repository, parts, recording, run, run_on, wrote, Ran, TWO};

fn sample() -> String {
    in_repository("sample.recording")
}

fn draw(more: &[&str]) -> Ran {
    run(&[&["picture", &sample()], more].concat())
}

#[test]
fn a_page() {
    let page = fresh("page.html");
    wrote(draw(&["--out", &page]), "");
    let text = fs::read_to_string(&page).expect("the page");
    assert!(text.contains("sample.recording") && text.contains("finish-start 0 NEW_TASK"));
    let nowhere = in_repository("crates/nothing/here.html");
    let said = format!("milch: {nowhere}: No such file or directory\n");
    failed(run_on(&["picture", "-", "--out", &nowhere], TWO), &said);
}

#[test]
fn no_table() {
    let page = fresh("none.html");
    let said = "milch: - begins with no table: refusal 1: the table's length does not fit its \
                number of screens, or that is not 1 to 64\n";
    failed(run_on(&["picture", "-", "--out", &page], &[]), said);
    assert!(fs::metadata(&page).is_err());
}

/// A page is replaced, and nothing else; with --force all but what is read.
#[test]
fn what_is_there() {
    let page = fresh("again.html");
    wrote(draw(&["--out", &page]), "");
    wrote(draw(&["--out", &page, "--to", "1"]), "");
    let text = fs::read_to_string(&page).expect("the page");
    assert!(!text.contains("finish-start"));
    for (name, bytes) in [
        ("kept.recording", &recording(TWO, &[(1, 0, 0)])[..]),
        ("kept.html", b"<!DOCTYPE html>\n<html lang=\"en\">\n"),
        ("kept.empty", b""),
    ] {
        let kept = file(name, bytes);
        let said =
            format!("milch: {kept} is there, and is no page of a picture: --force replaces it\n");
        failed(draw(&["--out", &kept]), &said);
        assert_eq!(fs::read(&kept).expect("a file"), bytes);
        wrote(draw(&["--out", &kept, "--force"]), "");
        assert!(fs::read(&kept).is_ok_and(|page| page.starts_with(b"<!DOCTYPE html>")));
    }
}

#[test]
fn what_is_read_stays() {
    let bytes = fs::read(sample()).expect("the sample");
    let recording = file("read.recording", &bytes);
    let names = file("read.names", b"0 home\n");
    for read in [&recording, &names] {
        let given = [
            "picture", &recording, "--names", &names, "--out", read, "--force",
        ];
        failed(run(&given), &format!("milch: {read} is read, and stays\n"));
    }
    assert_eq!(fs::read(&recording).expect("a file"), bytes);
}

/// Ended while the page is written, by a signal or by the limit alone: an earlier
/// page stays, and no part is left.
#[test]
fn an_interrupted_page() {
    let page = fresh("earlier.html");
    wrote(draw(&["--out", &page, "--to", "1"]), "");
    let earlier = fs::read(&page).expect("the page");
    let new = fresh("new.html");
    for (signal, status) in [("trap '' XFSZ", Some(2)), ("true", None)] {
        for place in [&page, &new] {
            let limited = format!(
                "ulimit -f 8; {signal}; exec {} picture {} --out {place}",
                env!("CARGO_BIN_EXE_milch"),
                sample()
            );
            let ran = Command::new("bash").args(["-c", &limited]).output();
            assert_eq!(ran.expect("bash").status.code(), status);
            assert_eq!(parts(place), 0);
        }
    }
    assert_eq!(fs::read(&page).expect("a file"), earlier);
    assert!(fs::metadata(&new).is_err());
}

/// The numbers of the records of a page.
fn numbers(page: &str) -> Vec<String> {
    let text = fs::read_to_string(page).expect("the page");
    let (_, rows) = text.split_once("\"moments\":[[").expect("the moments");
    let (rows, _) = rows.split_once("]]").expect("their end");
    let numbers = rows.split("],[").filter_map(|row| row.split(',').next());
    numbers.map(str::to_string).collect()
}

#[test]
fn a_part() {
    let page = fresh("part.html");
    wrote(draw(&["--out", &page, "--from", "3", "--to", "5"]), "");
    assert_eq!(numbers(&page), ["3", "4", "5"]);
    let text = fs::read_to_string(&page).expect("the page");
    assert!(text.contains("\"part\":true"));
    wrote(draw(&["--out", &page, "--from", "8"]), "");
    assert_eq!(numbers(&page), ["8"]);
    wrote(draw(&["--out", &page, "--to", "8"]), "");
    let text = fs::read_to_string(&page).expect("the page");
    assert!(text.contains("\"part\":false"));
    let file = sample();
    for (asked, option) in [("9", "--from"), ("10", "--to"), ("12", "--from")] {
        let said = format!("milch: {file} has no record {asked}: the last is 8\n");
        failed(draw(&["--out", &page, option, asked]), &said);
    }
    assert_eq!(numbers(&page).len(), 8);
}

/// The limit is that of the part.
#[test]
fn a_long_recording() {
    let (page, most) = (fresh("long.html"), 200_000);
    let many = file("many", &recording(TWO, &vec![(5, 0, 0); most + 2]));
    let said = format!(
        "milch: {many} has more than {most} records there, too many for a picture: \
         --from and --to choose fewer\n"
    );
    failed(run(&["picture", &many, "--out", &page]), &said);
    failed(
        run(&["picture", &many, "--out", &page, "--from", "2"]),
        &said,
    );
    wrote(run(&["picture", &many, "--out", &page, "--from", "3"]), "");
    assert_eq!(numbers(&page).len(), most);
}
