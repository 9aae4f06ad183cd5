//! `show`: the lines, by hand from README and from document 01's example.

mod common;

use common::{failed, file, in_repository, recording, run, run_on, warned, wrote, TWO};

const SAMPLE: [&str; 8] = [
    "     1  launch                      *0:[0]  | 1 0 0 0 1 1 1 0 8 0\n",
    "     2  start 1                     *0:[1,0]  R10  | 2 0 1 0 2 1 1 0 8 0\n",
    "     3  start 3                     3:[3] *0:[1,0]  R6  | 2 0 3 3 1 2 2 0 8 0\n",
    "     4  finish-start 0 NEW_TASK     *0:[0,1,0]  closed 1: 3  R17, found at place 2 by root  \
     | 3 0 0 0 3 1 1 1 8 0\n",
    "     5  back                        *0:[1,0]  closed 1: 0  | 4 0 1 0 2 1 1 1 8 0\n",
    "     6  back                        *0:[0]  closed 1: 1  | 4 0 0 0 1 1 1 1 8 0\n",
    "     7  back                        empty  closed 1: 0  | 4 0 0 0 0 0 0 1 8 0\n",
    "     8  back                        empty  refusal 21: a start or Back, and no task is there  \
     | 4 21 0 0 0 0 0 0 0 0\n",
];

fn sample() -> String {
    in_repository("sample.recording")
}

#[test]
fn the_sample() {
    wrote(run(&["show", &sample()]), &SAMPLE.concat());
    let bytes = std::fs::read(sample()).expect("the sample");
    wrote(run_on(&["show", "-"], &bytes), &SAMPLE.concat());
}

#[test]
fn some_records() {
    let file = sample();
    let show = |more: &[&str]| run(&[&["show", &file], more].concat());
    wrote(show(&["--from", "3", "--to", "4"]), &SAMPLE[2..4].concat());
    wrote(show(&["--to", "1"]), SAMPLE[0]);
    wrote(show(&["--from", "8"]), SAMPLE[7]);
    wrote(show(&["--refused"]), SAMPLE[7]);
    wrote(show(&["--refused", "--to", "7"]), "");
}

#[test]
fn records_that_are_not_there() {
    let file = sample();
    let said = |k: &str| format!("milch: {file} has no record {k}: the last is 8\n");
    failed(run(&["show", &file, "--from", "9"]), &said("9"));
    let beyond = run(&["show", &file, "--from", "8", "--to", "10"]);
    assert_eq!(beyond.out, SAMPLE[7]);
    failed(beyond, &said("10"));
    let none = "milch: - has no record 1: it has none\n";
    failed(run_on(&["show", "-", "--to", "1"], TWO), none);
}

/// A recording of a table alone has no line.
#[test]
fn no_record() {
    wrote(run_on(&["show", "-"], TWO), "");
}

/// Where the player stops, its line in words and a warning.
#[test]
fn no_table() {
    let line = "     0  no table  refusal 1: the table's length does not fit its number of \
                screens, or that is not 1 to 64  | 0 1 0 0 0 0 0 0 0 0\n";
    for bytes in [&[][..], &[0, 0], &[65], &[2, 0, 0, 1, 2], &TWO[..1]] {
        let refusal = "refusal 1: the table's length does not fit its number of screens, \
                       or that is not 1 to 64";
        let said = format!("milch: warning: - begins with no table: {refusal}\n");
        warned(run_on(&["show", "-"], bytes), line, &said);
    }
    let none = "milch: - has no record 1: it has none\n";
    failed(run_on(&["show", "-", "--to", "1"], &[]), none);
}

/// Under a table with refusal 2 each record has 2, and 9 where 9 applies.
#[test]
fn a_refused_table() {
    let bytes = recording(&[1, 1, 0, 0], &[(1, 0, 0), (7, 0, 0)]);
    let lines =
        "     1  launch                      empty  refusal 2: the table's main screen is not \
                 one of its screens, or a launch mode is not 0 to 3  | 1 2 0 0 0 0 0 0 0 0\n     \
                 2  unknown kind 7              empty  refusal 9: the record is of an unknown \
                 kind, or the recording ends within it  | 7 9 0 0 0 0 0 0 0 0\n";
    wrote(run_on(&["show", "-"], &bytes), lines);
}

/// The player has no kind 6: what follows it are records.
#[test]
fn kind_6_and_a_cut_record() {
    let mut bytes = recording(TWO, &[(1, 0, 0), (6, 0, 6), (5, 0, 0)]);
    bytes.extend([4, 0]);
    let nine = "refusal 9: the record is of an unknown kind, or the recording ends within it  |";
    let lines = format!(
        "     1  launch                      *0:[0]  | 1 0 0 0 1 1 1 0 8 0\n     \
         2  unknown kind 6              *0:[0]  {nine} 6 9 0 0 0 0 0 0 0 0\n     \
         3  look                        *0:[0]  | 5 0 0 0 1 1 1 0 8 0\n     \
         4  cut record                  *0:[0]  {nine} 4 9 0 0 0 0 0 0 0 0\n"
    );
    wrote(run_on(&["show", "-"], &bytes), &lines);
}

#[test]
fn no_history() {
    let records = [
        (1, 0, 0),
        (2, 1, 0x4000_0000),
        (2, 0, 0x1000_0000),
        (2, 1, 0x8000_0001),
    ];
    let lines = "     1  launch                      *0:[0]  | 1 0 0 0 1 1 1 0 8 0\n     \
         2  start 1 NO_HISTORY          1:[1] *0:[0]  no history  R6  | 2 0 1 1 1 2 2 0 8 1\n     \
         3  start 0 NEW_TASK            *0:[0,0]  closed 1: 1  the caller closed  \
         R17, found at place 2 by root  | 2 0 0 0 2 1 1 1 8 0\n     \
         4  start 1 0x80000001          *0:[0,0]  refusal 4: a start's flag word has a bit \
         that is none of the seven flags  \
         | 2 4 0 0 0 0 0 0 0 0\n";
    wrote(run_on(&["show", "-"], &recording(TWO, &records)), lines);
}

/// A marked screen that starts itself closes, and its task with it; by R7 nothing
/// does.
#[test]
fn a_marked_caller() {
    let records = [
        (1, 0, 0),
        (2, 1, 0x4000_0000),
        (2, 1, 0),
        (2, 1, 0x4000_0000),
        (2, 0, 0),
    ];
    let lines = "     1  launch                      *0:[0]  | 1 0 0 0 1 1 1 0 8 0\n     \
         2  start 1 NO_HISTORY          1:[1] *0:[0]  no history  R6  | 2 0 1 1 1 2 2 0 8 1\n     \
         3  start 1                     *0:[0]  closed 1: 1  the caller closed  \
         R4, found at place 1 by root  | 2 0 0 0 1 1 1 1 8 0\n     \
         4  start 1 NO_HISTORY          1:[1] *0:[0]  no history  R6  | 2 0 1 1 1 2 2 0 8 1\n     \
         5  start 0                     1:[0] *0:[0]  closed 1: 1  the caller closed  R10  \
         | 2 0 0 1 1 2 2 1 8 0\n";
    wrote(run_on(&["show", "-"], &recording(TWO, &records)), lines);
    let top = [1, 0, 1, 1];
    let records = [(1, 0, 0), (2, 0, 0x4000_0000), (2, 0, 0)];
    let ran = run_on(&["show", "-"], &recording(&top, &records));
    assert!(!ran.out.contains("caller"), "{}", ran.out);
}

/// Edition 7 empties the main task by R9; in edition 6 a task is found by affinity.
#[test]
fn editions() {
    let records = [
        (1, 7, 0),
        (2, 1, 0),
        (2, 0, 0x0002_0000),
        (1, 5, 0),
        (4, 0, 0),
        (1, 5, 0),
        (1, 6, 0),
        (2, 1, 0x1000_0000),
    ];
    let lines = "     1  launch edition 7            *0:[0]  edition 7  | 1 0 0 0 1 1 1 0 7 0\n     \
         2  start 1                     *0:[1,0]  edition 7  R10  | 2 0 1 0 2 1 1 0 7 0\n     \
         3  start 0 REORDER_TO_FRONT    *0:[0]  edition 7  closed 2: 1,0  R9  | 2 0 0 0 1 1 1 2 7 0\n     \
         4  launch edition 5            *0:[0]  edition 7  refusal 22: a launch, and a task is there  \
         | 1 22 0 0 0 0 0 0 0 0\n     \
         5  back                        empty  closed 1: 0  | 4 0 0 0 0 0 0 1 8 0\n     \
         6  launch edition 5            empty  refusal 30: a launch names an edition \
         that is none of 0, 6, 7 and 8  \
         | 1 30 0 0 0 0 0 0 0 0\n     \
         7  launch edition 6            *0:[0]  edition 6  | 1 0 0 0 1 1 1 0 6 0\n     \
         8  start 1 NEW_TASK            *0:[1,0]  edition 6  R17, found at place 1 by affinity  \
         | 2 0 1 0 2 1 1 0 6 0\n";
    let table = [2, 0, 0, 1, 0, 1];
    wrote(run_on(&["show", "-"], &recording(&table, &records)), lines);
}

#[test]
fn names() {
    let names = file("show_names", "1 seats\n\n 0\thome siteA \n".as_bytes());
    let bytes = recording(TWO, &[(1, 0, 0), (2, 1, 0), (2, 9, 0)]);
    let lines = "     1  launch                      *home:[home]  | 1 0 0 0 1 1 1 0 8 0\n     \
         2  start seats                 seats:[seats] *home:[home]  R6  \
         | 2 0 1 1 1 2 2 0 8 0\n     \
         3  start 9                     seats:[seats] *home:[home]  \
         refusal 3: a start names a screen that the table does not have  | 2 3 0 0 0 0 0 0 0 0\n";
    wrote(run_on(&["show", "-", "--names", &names], &bytes), lines);
}

/// A full session of one screen with a long name: 16 tasks of 32.
#[test]
fn the_longest_line() {
    let (new_task, many) = (0x1000_0000, 0x0800_0000);
    let mut records = vec![(1, 0, 0)];
    for task in 0..16 {
        if task > 0 {
            records.push((2, 0, new_task | many));
        }
        records.extend([(2, 0, 0); 31]);
    }
    let full = file("full", &recording(&[1, 0, 0, 1], &records));
    let names = file("full.names", format!("0 {}\n", "x".repeat(3000)).as_bytes());
    let ran = run(&["show", &full, "--names", &names, "--from", "512"]);
    assert_eq!((ran.status, ran.said.as_str()), (0, ""));
    assert_eq!(ran.out.matches('x').count(), 3000 * (1 + 16 * 33));
}

/// Names are held against the table also where there is none.
#[test]
fn names_without_a_table() {
    let none = file("none", &[]);
    let names = file("none.names", b"0 home\n");
    let said = format!("milch: {names}:1: 0 is no screen: the table has 0\n");
    failed(run(&["show", &none, "--names", &names]), &said);
}
