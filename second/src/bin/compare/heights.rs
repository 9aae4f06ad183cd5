//! Tasks of each height, cleared, emptied and reordered from inside and from
//! another task, by a No-History front and by another, in each edition, so that each
//! number of screens closes that a rule can close.

use second::edition::EDITIONS;
use second::play::RECORD;
use second::session::MAX_HEIGHT;
use second::table::{CLEAR_TASK, CLEAR_TOP, NEW_TASK, NO_HISTORY, REORDER_TO_FRONT, SINGLE_TOP};

use crate::check::{Checker, Difference};
use crate::make::{launch, record, T};
use crate::no_history::with_no_history;
use crate::sweep::Batch;

/// With these, the start of a task's root at its bottom clears or empties it, or
/// takes the root to the top.
const WORDS: [u32; 4] = [
    CLEAR_TOP,
    NEW_TASK | CLEAR_TOP,
    NEW_TASK | CLEAR_TASK,
    REORDER_TO_FRONT,
];

/// The path to a task of this root and height, in front, with the main task
/// behind it if it is not that task.
fn path(edition: u8, root: u8, height: usize) -> Vec<u8> {
    let launch = launch(edition);
    let task = match root {
        0 => Vec::new(),
        _ => record(2, root, NEW_TASK).to_vec(),
    };
    let above = record(2, 1, 0).repeat(height - 1);
    [&launch[..], &task, &above].concat()
}

/// The start that brings another task to the front of one of this root.
fn away(root: u8) -> [u8; RECORD] {
    match root {
        0 => record(2, 5, NEW_TASK),
        _ => record(2, 0, NEW_TASK | SINGLE_TOP),
    }
}

/// The same, pushed or made new with the No-History flag.
fn away_with_no_history(root: u8) -> [u8; RECORD] {
    match root {
        0 => record(2, 5, NEW_TASK | NO_HISTORY),
        _ => record(2, 0, NEW_TASK | NO_HISTORY),
    }
}

/// The paths to callers inside a task of this root and height and in another task,
/// and to such callers that are No-History fronts. Launch makes none.
fn paths(edition: u8, root: u8, height: usize) -> Vec<Vec<u8>> {
    let inside = path(edition, root, height);
    let outside = [&inside[..], &away(root)].concat();
    let no_history_outside = [&inside[..], &away_with_no_history(root)].concat();
    let no_history_inside = with_no_history(&inside);
    vec![inside, outside, no_history_inside, no_history_outside]
}

pub fn heights(checker: &mut Checker) -> Result<u64, Box<Difference>> {
    let mut batch = Batch::new("heights", T.to_vec());
    for edition in EDITIONS {
        for height in 1..=MAX_HEIGHT {
            // 0 is the main screen, 3 single-task; 3 and 5 have another affinity.
            for root in [0, 3, 5] {
                for path in paths(edition, root, height) {
                    let session = batch.reached(&path);
                    for flags in WORDS.iter().flat_map(|&word| [word, word | NO_HISTORY]) {
                        for kind in [2, 3] {
                            batch.call(checker, &session, &path, record(kind, root, flags))?;
                        }
                    }
                }
            }
        }
    }
    batch.finish(checker)?;
    Ok(batch.calls)
}
