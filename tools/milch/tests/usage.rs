//! What a command takes, and what cannot be read.

mod common;

use std::ffi::{OsStr, OsString};
use std::os::unix::ffi::OsStrExt;
use std::process::Command;

use common::{failed, file, in_repository, recording, run, wrote, TWO};
use milch::usage;

const COMMANDS: [&str; 8] = [
    "show", "at", "text", "bytes", "diff", "fronts", "panels", "picture",
];

/// These arguments are refused with this message.
fn wrong(given: &[&str], said: &str) {
    let command = given[0];
    let said = format!("milch: {command}: {said}; './milch {command} --help' says what it takes\n");
    failed(run(given), &said);
}

#[test]
fn help() {
    wrote(run(&["--help"]), usage::WHOLE);
    wrote(run(&["-h"]), usage::WHOLE);
    for command in COMMANDS {
        let help = usage::of(command).expect("its help");
        wrote(run(&[command, "--help"]), help);
        wrote(run(&[command, "-h"]), help);
        wrong(&[command, "a", "-h"], "-h stands alone behind the command");
        assert!(usage::WHOLE.contains(command));
    }
    failed(run(&[]), usage::WHOLE);
    let unknown = "milch: no command 'frob' is known; './milch --help' says what it takes\n";
    failed(run(&["frob", "a"]), unknown);
}

#[test]
fn arguments_of_each_command() {
    for command in COMMANDS {
        let (first, given) = match command {
            "diff" => ("FIRST", vec!["diff", "a", "b"]),
            "at" => ("FILE", vec!["at", "a", "1"]),
            "fronts" => ("FILE", vec!["fronts", "a", "1", "--known", "none"]),
            "picture" => ("FILE", vec!["picture", "a", "--out", "b"]),
            _ => ("FILE", vec![command, "a"]),
        };
        wrong(&[command], &format!("{first} is missing"));
        wrong(&[command, ""], &format!("{first} is an empty name"));
        let much = [&given[..], &["c"]].concat();
        wrong(&much, "'c' is one argument too many");
        let fast = [&given[..], &["--fast"]].concat();
        wrong(&fast, "no option --fast is known");
        if command == "panels" {
            let names = [&given[..], &["--names", "a"]].concat();
            wrong(&names, "no option --names is known");
            continue;
        }
        let names = [&given[..], &["--names"]].concat();
        wrong(&names, "behind --names NAMES is missing");
        let names = [&given[..], &["--names", "a", "--names", "b"]].concat();
        wrong(&names, "--names is given twice");
        let empty = [&given[..], &["--names", ""]].concat();
        wrong(&empty, "--names is an empty name");
    }
}

#[test]
fn numbers_of_records() {
    let first = "is no record's number, of which the first is 1";
    for (given, shown) in [
        ("0", "0"),
        ("x", "x"),
        ("-1", "-1"),
        ("", ""),
        ("00", "00"),
        ("+1", "+1"),
    ] {
        let from = ["show", "-", "--from", given];
        wrong(&from, &format!("--from '{shown}' {first}"));
    }
    wrong(
        &["picture", "-", "--out", "a", "--to", "0"],
        &format!("--to '0' {first}"),
    );
    wrong(&["at", "-", "0"], &format!("K '0' {first}"));
    wrong(&["at", "-", "K"], &format!("K 'K' {first}"));
    wrong(&["at", "-"], "K is missing");
    let beyond = "is beyond the last record of any recording";
    let large = "99999999999999999999";
    wrong(&["at", "-", large], &format!("K '{large}' {beyond}"));
    wrong(
        &["show", "-", "--from", "7", "--to", "3"],
        "--to 3 is before --from 7",
    );
    wrong(
        &["picture", "-", "--out", "a", "--to", "3", "--from", "7"],
        "--to 3 is before --from 7",
    );
    wrong(
        &["show", "-", "--from", "1", "--from", "1"],
        "--from is given twice",
    );
    wrong(&["show", "-", "--from"], "behind --from K is missing");
    wrong(
        &["at", "-", "1", "--from", "1"],
        "no option --from is known",
    );
}

#[test]
fn options_that_do_not_go_together() {
    wrong(
        &["show", "-", "--refused", "--refused"],
        "--refused is given twice",
    );
    wrong(&["show", "-", "--out", "a"], "no option --out is known");
    let once = "standard input can be read once only";
    wrong(&["show", "-", "--names", "-"], once);
    wrong(&["diff", "-", "-"], once);
    wrong(&["picture", "a"], "--out FILE.html is missing");
    wrong(
        &["picture", "a", "--out"],
        "behind --out FILE.html is missing",
    );
    wrong(
        &["picture", "a", "--out", "-"],
        "--out - is no file to be written",
    );
    wrong(
        &["bytes", "a", "--out", "-"],
        "--out - is no file to be written",
    );
    wrong(
        &["bytes", "a", "--force"],
        "--force is there for --out, which is missing",
    );
}

/// Arguments are tested before a file is opened.
#[test]
fn arguments_come_first() {
    wrong(
        &["show", "nothing-here", "--to", "3", "--from", "7"],
        "--to 3 is before --from 7",
    );
    wrong(
        &["at", "nothing-here", "x"],
        "K 'x' is no record's number, of which the first is 1",
    );
    let picture = ["picture", "nothing-here", "--names", "nothing-there"];
    wrong(&picture, "--out FILE.html is missing");
}

#[test]
fn what_cannot_be_read() {
    for command in ["show", "text", "bytes"] {
        let said = "milch: nothing-here: no such file\n";
        failed(run(&[command, "nothing-here"]), said);
        let folder = in_repository("crates");
        let said = format!("milch: {folder} is a directory, and no file\n");
        failed(run(&[command, &folder]), &said);
    }
}

/// A file's name is any bytes, that of a page and of names too.
#[test]
fn names_of_files_that_are_no_text() {
    let odd = |name: &[u8]| -> OsString {
        let folder = OsStr::new(env!("CARGO_TARGET_TMPDIR")).as_bytes();
        OsStr::from_bytes(&[folder, b"/", name].concat()).to_os_string()
    };
    let (read, names, page) = (odd(b"\xff.rec"), odd(b"\xfe.names"), odd(b"\xfd.html"));
    std::fs::write(&read, recording(TWO, &[(1, 0, 0)])).expect("a file");
    std::fs::write(&names, b"0 home\n").expect("a file");
    let _ = std::fs::remove_file(&page);
    let milch = |given: &[&OsStr]| {
        let ran = Command::new(env!("CARGO_BIN_EXE_milch"))
            .args(given)
            .output();
        let ran = ran.expect("the program");
        (
            ran.status.code(),
            String::from_utf8_lossy(&ran.stdout).into_owned(),
        )
    };
    let (status, out) = milch(&["show".as_ref(), &read, "--names".as_ref(), &names]);
    assert_eq!(status, Some(0));
    assert!(out.contains("*home:[home]"), "{out}");
    let (status, _) = milch(&["picture".as_ref(), &read, "--out".as_ref(), &page]);
    assert_eq!(status, Some(0));
    assert!(std::fs::read(&page).is_ok_and(|page| page.starts_with(b"<!DOCTYPE html>")));
}

/// Where memory ends, a message and status 2.
#[test]
fn out_of_memory() {
    let text = format!(
        "table main 0\nscreen 0 standard affinity 1\n{}",
        "back\n".repeat(8_000_000)
    );
    let text = file("large.txt", text.as_bytes());
    for kilobytes in [20_000, 60_000] {
        let limited = format!(
            "ulimit -v {kilobytes}; exec {} bytes {text} >/dev/null",
            env!("CARGO_BIN_EXE_milch")
        );
        let ran = Command::new("bash")
            .args(["-c", &limited])
            .output()
            .expect("bash");
        let said = String::from_utf8_lossy(&ran.stderr);
        assert_eq!(
            (ran.status.code(), &*said),
            (Some(2), "milch: out of memory\n")
        );
    }
    std::fs::remove_file(text).expect("it goes");
}
