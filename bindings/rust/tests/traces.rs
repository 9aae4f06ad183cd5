//! Document 001's example of Android's versions, in each edition. In edition 6
//! its preparation leads elsewhere, so its configuration is restored.

#[allow(dead_code)]
mod common;

use common::flags::{MTK, NONE, NTK, RTF};
use common::image_in;
use milchkompass::{Flags, Found, FoundBy, Reason, Rule, Session, Table};

const ROOT: FoundBy = FoundBy::Root;
const AFFINITY: FoundBy = FoundBy::Affinity;

/// Each task's root and its screens, top first.
type Tasks = &'static [(u8, &'static [u8])];

/// The configuration on which the example shows the differences, m 1. Its
/// screens A, B, C and D are 0 to 3.
const CONFIGURATION: Tasks = &[(0, &[2, 0]), (2, &[0, 3, 2]), (1, &[1])];

/// The example's table: all standard, A and B of affinity 1, C and D of 2.
fn table() -> Table {
    Table::from_bytes(&[4, 0, 0, 1, 0, 1, 0, 2, 0, 2]).expect("a good table")
}

fn session(tasks: Tasks, main: u8, edition: u8) -> Session {
    let mut session = Session::new(table());
    let restored = session.restore(&image_in(edition, tasks, main));
    restored.expect("a sound session");
    session
}

/// The start uses this rule, leaves these tasks and the edition, and closes so
/// many screens.
fn plays(edition: u8, call: (u8, Flags), why: (Rule, Option<Found>), after: (Tasks, u8, u8)) {
    let (screen, flags) = call;
    let (rule, found) = why;
    let (tasks, main, closed) = after;
    let mut s = session(CONFIGURATION, 1, edition);
    assert_eq!(s.why(screen, flags), Ok(Reason { rule, found }));
    let answer = s.start(screen, flags).expect("accepted");
    assert_eq!(
        s.save(),
        image_in(edition, tasks, main),
        "edition {edition}"
    );
    let (root, screens) = tasks[0];
    assert_eq!((answer.screen, answer.root), (screens[0], root));
    assert_eq!(usize::from(answer.height), screens.len());
    assert_eq!(usize::from(answer.tasks), tasks.len());
    assert_eq!((answer.main, answer.closed), (main, closed));
}

fn found(place: u8, by: FoundBy) -> Option<Found> {
    Some(Found { place, by })
}

/// The steps that prepare the configuration. In edition 6 the last start finds
/// the task of B, which is in front of the main one and has its affinity.
#[test]
fn the_preparation() {
    const ELSEWHERE: Tasks = &[(1, &[1]), (2, &[0, 3, 2]), (0, &[2, 0])];
    for (edition, tasks, main) in [
        (6, ELSEWHERE, 3),
        (7, CONFIGURATION, 1),
        (8, CONFIGURATION, 1),
    ] {
        let mut s = session(&[(0, &[0])], 1, edition);
        for (screen, flags) in [
            (2, NONE),
            (1, NTK | MTK),
            (2, NTK),
            (3, NONE),
            (0, NONE),
            (0, NTK),
        ] {
            s.start(screen, flags).expect("accepted");
        }
        s.back().expect("accepted");
        assert_eq!(
            s.save(),
            image_in(edition, tasks, main),
            "edition {edition}"
        );
    }
}

/// With NEW_TASK, REORDER_TO_FRONT is ignored.
#[test]
fn new_task_and_reorder_to_front() {
    const PUSHED: Tasks = &[(2, &[3, 0, 3, 2]), (0, &[2, 0]), (1, &[1])];
    for edition in [6, 7, 8] {
        let why = (Rule::R17, found(2, AFFINITY));
        plays(edition, (3, NTK | RTF), why, (PUSHED, 2, 0));
    }
}

/// The screen is lifted; in edition 7 the main task is cleared instead.
#[test]
fn reorder_to_front() {
    const LIFTED: Tasks = &[(0, &[0, 2]), (2, &[0, 3, 2]), (1, &[1])];
    const CLEARED: Tasks = &[(0, &[0]), (2, &[0, 3, 2]), (1, &[1])];
    for (edition, tasks, closed) in [(6, LIFTED, 0), (7, CLEARED, 2), (8, LIFTED, 0)] {
        plays(edition, (0, RTF), (Rule::R9, None), (tasks, 1, closed));
    }
}

/// The task of B comes to the front; in edition 6 it is not sought by root.
#[test]
fn new_task() {
    const PUSHED: Tasks = &[(0, &[1, 2, 0]), (2, &[0, 3, 2]), (1, &[1])];
    const MOVED: Tasks = &[(1, &[1]), (0, &[2, 0]), (2, &[0, 3, 2])];
    let why = (Rule::R17, found(1, AFFINITY));
    plays(6, (1, NTK), why, (PUSHED, 1, 0));
    for edition in [7, 8] {
        let why = (Rule::R15, found(3, ROOT));
        plays(edition, (1, NTK), why, (MOVED, 2, 0));
    }
}
