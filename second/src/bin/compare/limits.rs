//! Calls at the limits: from sessions with a task of 31 or 32 screens, or with
//! 15 or 16 tasks, every screen with all 64 words of the six flags that choose rules
//! by a start and by a finishing start, and then Backs until the session is empty; in
//! each edition. By turns the call has the No-History flag or not, and comes from such
//! a front or not.

use second::edition::EDITIONS;
use second::table::{MULTIPLE_TASK, NEW_TASK};

use crate::check::{Checker, Difference};
use crate::make::{launch, record, T};
use crate::no_history::with_no_history;
use crate::sweep::{calls, Batch, SEVENTH_FLAG, SIX_FLAGS};

/// The paths to the sessions, under a table like T: screens 0, 1 and 5 are
/// standard, 2 single-top, 3 single-task, 4 single-instance.
fn paths(edition: u8) -> Vec<Vec<u8>> {
    let launch = launch(edition);
    let start = |b| record(2, b, 0);
    let apart = |b| record(2, b, NEW_TASK);
    let split = |b| record(2, b, NEW_TASK | MULTIPLE_TASK);
    let mut paths = Vec::new();
    let mut add = |steps: &[&[u8]]| paths.push(steps.concat());
    for more in [30, 31] {
        let push = |b| start(b).repeat(more);
        // The main task in front, and then behind another.
        add(&[&launch, &push(0)]);
        add(&[&launch, &push(1)]);
        add(&[&launch, &push(1), &apart(5)]);
        add(&[&launch, &push(1), &start(3)]);
        add(&[&launch, &push(0), &start(4)]);
        // Another task in front, and then behind the main one.
        add(&[&launch, &split(5), &push(0)]);
        add(&[&launch, &split(5), &push(0), &apart(0)]);
        add(&[&launch, &split(0), &push(1)]);
        add(&[&launch, &split(1), &push(0), &start(4)]);
        // A root gone from its task, and a single-top one.
        add(&[&launch, &apart(5), &record(3, 1, 0), &push(1)]);
        add(&[&launch, &split(2), &push(0)]);
        // A single-task root, standing in its task and gone from it.
        add(&[&launch, &start(3), &push(1)]);
        add(&[&launch, &start(3), &record(3, 1, 0), &push(1)]);
        add(&[&launch, &start(3), &record(3, 1, 0), &push(1), &start(4)]);
    }
    for more in [14, 15] {
        add(&[&launch, &split(0).repeat(more)]);
        add(&[&launch, &split(1).repeat(more)]);
        add(&[&launch, &split(5).repeat(more)]);
        add(&[&launch, &split(1).repeat(more - 1), &start(4)]);
        add(&[&launch, &split(1).repeat(more - 2), &start(4), &start(3)]);
        add(&[&launch, &split(1).repeat(more - 2), &start(3), &start(4)]);
    }
    paths
}

pub fn limits(checker: &mut Checker) -> Result<u64, Box<Difference>> {
    let (mut alike, mut none) = (T, T);
    for screen in 0..6 {
        alike[3 + 2 * screen] = 1;
        none[3 + 2 * screen] = 0;
    }
    let mut calls = 0;
    for (turn, table) in [T, alike, none].into_iter().enumerate() {
        let mut batch = Batch::new("limits", table.to_vec());
        for (more, edition) in EDITIONS.into_iter().enumerate() {
            for path in paths(edition) {
                by_turns(checker, &mut batch, &path, EDITIONS.len() * turn + more)?;
            }
        }
        batch.finish(checker)?;
        calls += batch.calls;
    }
    Ok(calls)
}

/// Makes each call with or without the flag and from such a front or not, beginning
/// with this turn of the four.
fn by_turns(
    checker: &mut Checker,
    batch: &mut Batch,
    path: &[u8],
    first: usize,
) -> Result<(), Box<Difference>> {
    let no_history = with_no_history(path);
    let fronts = [path, &no_history].map(|path| (batch.reached(path), path));
    let words = calls(T[0], SIX_FLAGS).zip(calls(T[0], SEVENTH_FLAG));
    for (number, (without, with)) in words.enumerate() {
        let turn = first + number;
        let (session, path) = &fronts[turn % 2];
        let call = [without, with][turn / 2 % 2];
        batch.call(checker, session, path, call)?;
    }
    Ok(())
}
