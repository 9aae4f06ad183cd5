//! `fronts`: screens that could be in front where flags are missing, by hand.

mod common;

use common::{failed, file, in_repository, recording, run, run_on, warned, wrote, TWO};

/// Table T of document 01.
const T: &[u8] = &[6, 0, 0, 1, 0, 1, 1, 1, 2, 2, 3, 1, 0, 2];
const NEW_TASK: u32 = 0x1000_0000;
const NO_HISTORY: u32 = 0x4000_0000;
/// All flags but NEW_TASK, as a mask in hex.
const ALL_BUT_NEW_TASK: &str = "0x6c028000";

fn fronts(bytes: &[u8], record: &str, known: &str) -> common::Ran {
    run_on(&["fronts", "-", record, "--known", known], bytes)
}

/// Two tasks, 5:[1,5] 0:[0], and a start of 5.
fn covered(word: u32) -> Vec<u8> {
    let begin = [(1, 0, 0), (2, 5, NEW_TASK), (2, 1, 0), (2, 5, word)];
    recording(T, &begin)
}

#[test]
fn new_task_unknown() {
    let text = "1 by start 5 NEW_TASK: R15, found at place 1 by root\n\
        5 by start 5: R10\n\
        2 screens could be in front\n";
    let rests = "milch: warning: -: record 2, with the same flags unknown, could have left \
        another session than the one that this rests on\n";
    warned(fronts(&covered(0), "4", ALL_BUT_NEW_TASK), text, rests);
    // The bits that are not known are not looked at.
    warned(
        fronts(&covered(NEW_TASK), "4", ALL_BUT_NEW_TASK),
        text,
        rests,
    );
    let six = "SINGLE_TOP|MULTIPLE_TASK,CLEAR_TOP | REORDER_TO_FRONT,CLEAR_TASK,NO_HISTORY";
    warned(fronts(&covered(0), "4", six), text, rests);
}

#[test]
fn all_known() {
    let text = "5 by start 5: R10\n1 screen could be in front\n";
    wrote(fronts(&covered(0), "4", "0x7c028000"), text);
    let text = "1 by start 5 NEW_TASK: R15, found at place 1 by root\n1 screen could be in front\n";
    wrote(fronts(&covered(NEW_TASK), "4", "0x7c028000"), text);
}

/// The first start that could have left another session is named, a finishing one too; a
/// launch and a start that every filling does alike are not.
#[test]
fn what_it_rests_on() {
    let begin = [(1, 0, 0), (5, 0, 0), (3, 1, 0), (2, 0, 0)];
    let ran = fronts(&recording(TWO, &begin), "4", "none");
    assert_eq!(ran.status, 0);
    assert!(
        ran.said.starts_with("milch: warning: -: record 3, "),
        "{}",
        ran.said
    );
    let begin = [(1, 0, 0), (2, 1, 0), (2, 0, 0)];
    let known = "NEW_TASK,SINGLE_TOP,MULTIPLE_TASK,CLEAR_TOP,REORDER_TO_FRONT,NO_HISTORY";
    let ran = fronts(&recording(TWO, &begin), "3", known);
    assert_eq!((ran.status, ran.said.as_str()), (0, ""));
}

/// None, in three ways: no task, every filling refused, the last screen closed.
#[test]
fn none_could() {
    let empty = recording(TWO, &[(2, 0, 0)]);
    let text = "no screen could be in front: no task is there\n";
    wrote(fronts(&empty, "1", "none"), text);
    let mut tall = vec![(1, 0, 0)];
    tall.extend([(2, 0, 0); 31]);
    tall.push((2, 0, 0));
    let text = "no screen could be in front: every filling is refused, with no other flag by \
        refusal 24: a screen is to be pushed onto a task of 32\n";
    wrote(fronts(&recording(TWO, &tall), "33", "0x7c028000"), text);
    // R13 finds the caller, which leaves no history and stands alone.
    let marked = [(1, 0, 0), (3, 0, NO_HISTORY), (2, 0, 0x1400_0000)];
    let text =
        "no screen could be in front: every filling that is accepted closes the last screen\n";
    wrote(
        fronts(&recording(&[1, 0, 0, 1], &marked), "3", "0x7c028000"),
        text,
    );
}

/// Every filling of a single-instance screen that starts itself is done by R1.
#[test]
fn whatever_is_missing() {
    let alone = recording(&[1, 0, 3, 0], &[(1, 0, 0), (2, 0, 0)]);
    let text = "0 by start 0: R1, found at place 1 by root\n1 screen could be in front\n";
    wrote(fronts(&alone, "2", "none"), text);
}

#[test]
fn names_of_screens() {
    let names = file("fronts_names", b"1 notice\n5 seats\n");
    let bytes = covered(0);
    let ran = run_on(
        &[
            "fronts",
            "-",
            "4",
            "--known",
            "0x7c028000",
            "--names",
            &names,
        ],
        &bytes,
    );
    wrote(
        ran,
        "seats by start seats: R10\n1 screen could be in front\n",
    );
}

#[test]
fn what_is_wrong() {
    let bytes = covered(0);
    let none = "milch: -: record 1 is no plain start: launch\n";
    failed(fronts(&bytes, "1", "none"), none);
    let finishing = recording(TWO, &[(1, 0, 0), (3, 1, 0)]);
    let none = "milch: -: record 2 is no plain start: finish-start 1\n";
    failed(fronts(&finishing, "2", "none"), none);
    failed(
        fronts(&bytes[..bytes.len() - 1], "4", "none"),
        "milch: -: record 4 is no plain start: cut record\n",
    );
    for (asked, last) in [("5", "4"), ("9", "4")] {
        let missing = format!("milch: - has no record {asked}: the last is {last}\n");
        failed(fronts(&bytes, asked, "none"), &missing);
    }
    let unknown = recording(TWO, &[(1, 0, 0), (2, 2, 0)]);
    let refused =
        "milch: -: record 2: refusal 3: a start names a screen that the table does not have\n";
    failed(fronts(&unknown, "2", "none"), refused);
    let refused = "milch: -: record 4: refusal 35: a known flag is none of the seven, or a flag \
        that is not known has a value\n";
    failed(fronts(&bytes, "4", "0x1"), refused);
    let no_table = fronts(&[0], "1", "none");
    assert_eq!(no_table.status, 2);
    for known in [
        "",
        "NEWTASK",
        "NEW_TASK,",
        "none,NEW_TASK",
        "0x",
        "0x100000000",
        "1",
    ] {
        let forms = "names joined by | or commas, hex behind 0x, or none";
        let wrong = format!(
            "milch: fronts: --known '{known}' is no list of flags: {forms}; \
             './milch fronts --help' says what it takes\n"
        );
        failed(fronts(&bytes, "4", known), &wrong);
    }
    let sample = in_repository("sample.recording");
    let missing =
        "milch: fronts: --known FLAGS is missing; './milch fronts --help' says what it takes\n";
    failed(run(&["fronts", &sample, "2"]), missing);
}
