//! `at`: the stacks after a record, by hand.

mod common;

use common::{failed, in_repository, recording, run, run_on, wrote, TWO};

#[test]
fn the_sample() {
    let sample = in_repository("sample.recording");
    let text = "RECORD 3: start 3\n  \
        R6: no task is found for the single-task screen: a new task of it alone comes to the front\n\
        STACKS: tasks=2 edition=8 mark=none\n  \
        Task #1: root=3 affinity=2 main=no screens=1\n    \
        Hist #0: 3 mode=single-task\n  \
        Task #2: root=0 affinity=1 main=yes screens=2\n    \
        Hist #1: 1 mode=standard\n    \
        Hist #0: 0 mode=standard\n";
    wrote(run(&["at", &sample, "3"]), text);
    let text = "RECORD 4: finish-start 0 NEW_TASK\n  \
        R17, found at place 2 by root: a task is found for it: it comes to the front, and the \
        screen opens on top\n  \
        closed 1: 3\n\
        STACKS: tasks=1 edition=8 mark=none\n  \
        Task #1: root=0 affinity=1 main=yes screens=3\n    \
        Hist #2: 0 mode=standard\n    \
        Hist #1: 1 mode=standard\n    \
        Hist #0: 0 mode=standard\n";
    wrote(run(&["at", &sample, "4"]), text);
    let text = "RECORD 8: back\n  refusal 21: a start or Back, and no task is there\n\
        STACKS: tasks=0 edition=8 mark=none\n";
    wrote(run(&["at", &sample, "8"]), text);
}

#[test]
fn names_modes_edition_and_mark() {
    let names = common::file("at_names", b"1 notice\n");
    let table = [3, 0, 1, 0, 3, 7, 0, 1];
    let records = [(1, 6, 0), (2, 1, 0x4000_0000), (2, 3, 0)];
    let bytes = recording(&table, &records);
    let text =
        "RECORD 3: start 3\n  refusal 3: a start names a screen that the table does not have\n\
        STACKS: tasks=2 edition=6 mark=no-history\n  \
        Task #1: root=notice affinity=7 main=no screens=1\n    \
        Hist #0: notice mode=single-instance\n  \
        Task #2: root=0 affinity=none main=yes screens=1\n    \
        Hist #0: 0 mode=single-top\n";
    wrote(run_on(&["at", "-", "3", "--names", &names], &bytes), text);
}

/// The caller that closes is told; of a task that is gone nothing says that it
/// comes to the front.
#[test]
fn a_marked_caller() {
    let names = common::file("at_marked", b"0 home\n1 notice\n");
    let begin = [(1, 0, 0), (2, 1, 0x4000_0000)];
    let told = |last: (u8, u8, u32)| {
        let bytes = recording(TWO, &[&begin[..], &[last]].concat());
        let ran = run_on(&["at", "-", "3", "--names", &names], &bytes);
        assert_eq!((ran.status, ran.said.as_str()), (0, ""));
        ran.out
            .lines()
            .skip(1)
            .take(2)
            .collect::<Vec<_>>()
            .join("\n")
    };
    let gone = "  R4, found at place 1 by root: the task found holds the caller alone";
    let goes = ": it closes, and its task goes\n  closed 1: notice";
    let history = ", which leaves no history";
    assert_eq!(told((2, 1, 0)), format!("{gone}{history}{goes}"));
    assert_eq!(
        told((2, 0, 0x1000_0000)),
        format!(
            "  R17, found at place 2 by root: a task is found for it: it comes to the front, \
             and the screen opens on top; the caller closes{history}\n  closed 1: notice"
        )
    );
    // A finishing start of an unmarked screen that is alone and starts itself.
    let bytes = recording(TWO, &[(1, 0, 0), (2, 1, 0), (3, 1, 0)]);
    let ran = run_on(&["at", "-", "3", "--names", &names], &bytes);
    assert!(ran.out.contains(&format!("{gone}{goes}")), "{}", ran.out);
}

#[test]
fn records_that_are_not_there() {
    let sample = in_repository("sample.recording");
    for (asked, last) in [("9", "8"), ("1000000", "8")] {
        let said = format!("milch: {sample} has no record {asked}: the last is {last}\n");
        failed(run(&["at", &sample, asked]), &said);
    }
    let none = "milch: - has no record 1: it has none\n";
    failed(run_on(&["at", "-", "1"], TWO), none);
    let table = "milch: - begins with no table: refusal 1: the table's length does not fit its \
                 number of screens, or that is not 1 to 64\n";
    failed(run_on(&["at", "-", "1"], &[]), table);
}
