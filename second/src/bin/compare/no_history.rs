//! Small sessions with a No-History front: from each of them every screen with all
//! 128 flag words by a start and by a finishing start, and then Backs until the
//! session is empty; and the calls that keep such a front, with looks between them;
//! in each edition.

use second::edition::EDITIONS;
use second::play::RECORD;
use second::table::{
    CLEAR_TASK, CLEAR_TOP, MULTIPLE_TASK, NEW_TASK, NO_HISTORY, REORDER_TO_FRONT, SINGLE_TOP,
};

use crate::check::{Checker, Difference};
use crate::make::{launch, record, T};
use crate::sweep::Batch;

/// The path with the No-History flag in its last record. Its front is such a one if
/// that is a start that pushes or makes new.
pub fn with_no_history(path: &[u8]) -> Vec<u8> {
    let mut path = path.to_vec();
    let last = path.len() - RECORD;
    let flags = NO_HISTORY.to_be_bytes();
    for (byte, flag) in path[last + 2..].iter_mut().zip(flags) {
        *byte |= flag;
    }
    path
}

/// The starts that lead from launch, the last of them with the flag, to sessions
/// under T: 0, the main screen, 1 and 5 are standard, 2 single-top, 3 single-task, 4
/// single-instance; 3 and 5 have another affinity.
fn starts() -> Vec<Vec<u8>> {
    let start = |b| record(2, b, 0);
    let finishing = |b| record(3, b, 0);
    let apart = |b| record(2, b, NEW_TASK);
    let split = |b| record(2, b, NEW_TASK | MULTIPLE_TASK);
    let all: [&[[u8; RECORD]]; 20] = [
        // The main task in front.
        &[start(1)],
        &[start(1), start(2)],
        &[start(2), start(1), start(1)],
        &[apart(0)],
        &[record(2, 0, NEW_TASK | CLEAR_TASK)],
        // Another in front of it.
        &[apart(5)],
        &[apart(5), start(1), start(5)],
        &[apart(5), start(3)],
        &[split(0)],
        &[split(0), start(1)],
        &[start(3)],
        &[start(2), start(3)],
        &[start(3), finishing(1), start(3)],
        &[start(4)],
        &[start(1), start(2), start(4)],
        &[start(3), start(1), start(4)],
        // Another alone.
        &[record(3, 5, NEW_TASK)],
        &[record(3, 1, NEW_TASK | MULTIPLE_TASK)],
        &[finishing(3)],
        &[finishing(4)],
    ];
    all.into_iter().map(|starts| starts.concat()).collect()
}

pub fn fronts(checker: &mut Checker) -> Result<u64, Box<Difference>> {
    let mut batch = Batch::new("No-History fronts", T.to_vec());
    for edition in EDITIONS {
        for starts in starts() {
            let path = with_no_history(&[&launch(edition)[..], &starts].concat());
            let session = batch.reached(&path);
            assert!(session.no_history, "the front is a No-History one");
            batch.all_calls(checker, &session, &path)?;
        }
    }
    batch.finish(checker)?;
    Ok(batch.calls)
}

/// Looks, refused calls and starts by R7 on a No-History front, each with looks after
/// it; at the limits too.
pub fn kept() -> Vec<u8> {
    let (back, look) = (record(4, 0, 0), record(5, 0, 0));
    let (start, split) = (record(2, 1, 0), record(2, 1, NEW_TASK | MULTIPLE_TASK));
    let mut keeping = vec![look, launch(0), record(0, 0, 0), record(6, 0, 0)];
    for kind in [2, 3] {
        keeping.extend([record(kind, 6, NO_HISTORY), record(kind, 1, NO_HISTORY | 1)]);
    }
    for flag in [SINGLE_TOP, CLEAR_TOP, REORDER_TO_FRONT] {
        keeping.extend([record(2, 1, flag), record(2, 1, NO_HISTORY | flag)]);
    }
    // Pushed, the 32nd of a task, the 16th task.
    let paths = [start.to_vec(), start.repeat(31), split.repeat(15)];
    let full = [
        vec![],
        vec![start, record(3, 5, NO_HISTORY)],
        vec![split, record(2, 4, 0), record(3, 3, NO_HISTORY)],
    ];
    let mut records = Vec::new();
    for edition in EDITIONS {
        for (path, full) in paths.iter().zip(&full) {
            records.extend(with_no_history(&[&launch(edition)[..], path].concat()));
            for call in keeping.iter().chain(full) {
                records.extend([*call, look, look].concat());
            }
            records.extend([back, look].concat().repeat(path.len() / RECORD + 1));
        }
    }
    records
}
