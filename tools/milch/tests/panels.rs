//! `panels`: texts of steps and Backs, played, and what is not understood.

mod common;

use common::{failed, file, run, run_on, wrote};
use milch::cursor::Wrong;
use milch::panels::{calls_of, Call};
use milchkompass::Operation::{Add, Remove, Replace};

/// The text is not understood there, for want of this.
fn wrong(text: &str, line: usize, column: usize, expected: &str, found: &str) {
    let wrong = Wrong {
        line,
        column,
        expected: expected.to_string(),
        found: found.to_string(),
    };
    assert_eq!(calls_of(text), Err(wrong));
}

const TEXT: &str = "# filters\n\
    step add 4\n\
    \n\
    record add 5 add 4   # two more\n\
    record remove 4\n\
    back\n\
    step replace 1\n\
    step add 1 add 2 add 3 add 4 add 5\n\
    back\n\
    back\n";

const PLAYED: &str = "     2  step add 4                  [4], 0 recorded\n     \
    4  record add 5 add 4          [4,5,4], 1 recorded\n     \
    5  record remove 4             [4,5], 2 recorded\n     \
    6  back                        [4,5,4], 1 recorded\n     \
    7  step replace 1              refusal 38: a ninth recorded step, an unrecorded step over recorded ones, or Back with none recorded\n     \
    8  step add 1 add 2 add 3 add 4 add 5  refusal 36: a step has not 1 to 4 operations, or one of another kind than 1 to 3; or the container has more than 8 steps, or more than 8 panels now or kept\n     \
    9  back                        [4], 0 recorded\n    \
    10  back                        refusal 38: a ninth recorded step, an unrecorded step over recorded ones, or Back with none recorded\n";

#[test]
fn a_text() {
    wrote(run_on(&["panels", "-"], TEXT.as_bytes()), PLAYED);
    let file = file("panels.txt", TEXT.as_bytes());
    wrote(run(&["panels", &file]), PLAYED);
    wrote(run_on(&["panels", "-"], b""), "");
}

#[test]
fn calls() {
    let text = "\u{feff}record add 0 remove 255 replace 7\n\n  back # all\r\nstep\n";
    let record = Call::Record(vec![Add(0), Remove(255), Replace(7)]);
    let wanted = vec![(1, record), (3, Call::Back), (4, Call::Step(vec![]))];
    assert_eq!(calls_of(text), Ok(wanted));
}

#[test]
fn what_is_not_understood() {
    let first = "step, record or back at the start of a line";
    wrong("step add 1\nrecords add 1", 2, 1, first, "records");
    wrong("add 1", 1, 1, first, "add");
    let more = "add, remove, replace or the end of the line";
    wrong("record add 1 and 2", 1, 14, more, "and");
    wrong("step 3", 1, 6, more, "3");
    wrong("step add", 1, 9, "a panel, 0 to 255", "");
    wrong("step add 256", 1, 10, "a panel, 0 to 255", "256");
    wrong("back 1", 1, 6, "the end of the line", "1");
}

/// Nothing is played where the text is not understood.
#[test]
fn nothing_is_played() {
    let said = "milch: -:2:6: expected the end of the line, not '1'\n";
    failed(run_on(&["panels", "-"], b"step add 1\nback 1\n"), said);
    let said = "milch: -:2:5: expected text in UTF-8, not 'a byte that is none'\n";
    failed(run_on(&["panels", "-"], b"back\nback\xff\n"), said);
}
