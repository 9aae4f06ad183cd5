//! The flag chart in words.

mod common;

use common::{failed, in_repository, run, wrote};

fn wrong(given: &[&str], said: &str) {
    failed(
        run(given),
        &format!("milch: chart: {said}; './milch chart --help' says what it takes\n"),
    );
}

/// The line of an index, without it.
fn line(text: &str, index: u16) -> String {
    let begin = format!("{index} ");
    let mut found = text.lines().filter_map(|line| line.strip_prefix(&begin));
    let line = found.next().expect("its line").to_string();
    assert_eq!(found.next(), None);
    line
}

#[test]
fn the_numbers() {
    let expected = std::fs::read_to_string(in_repository("crates/chart/stdout"));
    wrote(run(&["chart"]), &expected.expect("what is expected"));
}

#[test]
fn a_line_for_each_entry() {
    let all = run(&["chart", "--words"]);
    let numbers = run(&["chart"]).out;
    assert_eq!((all.status, all.said.as_str()), (0, ""));
    assert_eq!(all.out.lines().count(), 512);
    let mut joined = String::new();
    for mode in ["standard", "single-top", "single-task", "single-instance"] {
        let part = run(&["chart", "--mode", mode, "--words"]).out;
        let own = |line: &str| line.split([' ', ':']).nth(2) == Some(mode);
        assert!(part.lines().all(own), "{mode}");
        joined.push_str(&part);
    }
    assert_eq!(joined, all.out);
    for (index, (line, number)) in all.out.lines().zip(numbers.lines()).enumerate() {
        assert!(line.starts_with(&format!("{index} {number} ")), "{line}");
    }
}

/// By hand from the rules.
#[test]
fn the_words() {
    let all = run(&["chart", "--words"]).out;
    for (index, expected) in [
        (0, "3 standard: it opens on top of the front task"),
        (16, "11 standard SINGLE_TOP: if it is in front already, nothing moves; else it opens on top of the front task"),
        (4, "19 standard CLEAR_TOP: if it is in front already, nothing moves; if the front task holds it, what lies above it closes; else it opens on top of the front task"),
        (3, "67 standard REORDER_TO_FRONT|CLEAR_TASK: if it is in front already, nothing moves; if the front task holds it, it comes to the top, and edition 7 empties a main task first; else it opens on top of the front task"),
        (6, "19 standard CLEAR_TOP|REORDER_TO_FRONT: if it is in front already, nothing moves; if the front task holds it, what lies above it closes; else it opens on top of the front task"),
        (40, "4 standard NEW_TASK|MULTIPLE_TASK: a new task of it alone comes to the front"),
        (64, "5 standard from a single-instance screen: a task found for it comes to the front, and the screen opens on top, unless the task is found by its root and is not the main one; if none is found, a new task of it alone does"),
        (160, "13 single-top NEW_TASK: a task found for it comes to the front, and the screen opens on top, unless it is there already, or the task is found by its root and is not the main one; if none is found, a new task of it alone does"),
        (36, "21 standard NEW_TASK|CLEAR_TOP: a task found for it comes to the front, and what lies above the screen there closes, or the screen opens on top; if none is found, a new task of it alone does"),
        (37, "37 standard NEW_TASK|CLEAR_TOP|CLEAR_TASK: a task found for it comes to the front, and all in it closes, and the screen opens in it; if none is found, a new task of it alone does"),
        (264, "2 single-task MULTIPLE_TASK: a task found for it comes to the front, and what lies above the screen there closes, or the screen opens on top; if none is found, a new task of it alone does"),
        (257, "34 single-task CLEAR_TASK: a task found for it comes to the front, and all in it closes, and the screen opens in it; if none is found, a new task of it alone does"),
        (511, "1 single-instance from a single-instance screen NEW_TASK|SINGLE_TOP|MULTIPLE_TASK|CLEAR_TOP|REORDER_TO_FRONT|CLEAR_TASK: its task comes to the front; if it has none, a new task of it alone does"),
    ] {
        assert_eq!(line(&all, index), expected);
    }
}

#[test]
fn misuse() {
    let modes = "standard, single-top, single-task and single-instance";
    wrong(&["chart", "x"], "'x' is one argument too many");
    wrong(
        &["chart", "--mode", "standard"],
        "--mode is there for --words, which is missing",
    );
    for mode in ["", "4", "singleTop"] {
        wrong(
            &["chart", "--words", "--mode", mode],
            &format!("--mode '{mode}' is none of {modes}"),
        );
    }
    wrong(
        &["chart", "--words", "--mode"],
        "behind --mode MODE is missing",
    );
    wrong(
        &["chart", "--words", "--words"],
        "--words is given twice",
    );
}
