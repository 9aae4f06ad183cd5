//! What the tests share. Not each of them uses all.
#![allow(dead_code)]

use second::{Session, Task};

/// Table T: 0, the main screen, 1 and 2, single-top, and 4, single-instance, have
/// affinity 1; 3, single-task, and 5 have affinity 2.
pub const T: [u8; 14] = [6, 0, 0, 1, 0, 1, 1, 1, 2, 2, 3, 1, 0, 2];

/// The answer of a look at an empty session.
pub const EMPTY: [u8; 9] = [0, 0, 0, 0, 0, 0, 0, 8, 0];

/// What a reason's task is found by.
pub const NONE: u8 = 0;
pub const ROOT: u8 = 1;
pub const AFFINITY: u8 = 2;

/// A session of edition 8 from its main place and its tasks, screens top first.
pub fn session(main: usize, tasks: &[(u8, &[u8])]) -> Session {
    session_in(8, main, tasks)
}

/// The same of any edition.
pub fn session_in(edition: u8, main: usize, tasks: &[(u8, &[u8])]) -> Session {
    let tasks = tasks
        .iter()
        .map(|&(root, screens)| Task::new(root, screens))
        .collect();
    Session {
        tasks,
        main,
        edition,
        no_history: false,
    }
}

/// The session with a No-History front.
pub fn no_history(session: Session) -> Session {
    Session {
        no_history: true,
        ..session
    }
}

/// How many screens stand in a session.
pub fn standing(session: &Session) -> usize {
    session.tasks.iter().map(|task| task.height()).sum()
}
