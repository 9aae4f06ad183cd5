//! How often screens of affinity 0 were started, for comparisons.

use std::fmt;

use crate::table::NO_AFFINITY;
use crate::{Reason, Table, Task};

const MODES: [&str; 4] = ["standard", "single-top", "single-task", "single-instance"];

/// What a task of theirs can be found by, in the order of a reason's numbers.
const FOUND: [&str; 2] = ["none", "root"];

/// Accepted starts of screens of affinity 0.
#[derive(Default)]
pub struct NoAffinity {
    /// By mode and by what found their task.
    starts: [[u64; 2]; 4],
    /// Those for which no task was found, though there was one that the same
    /// affinity would have found if it were not 0.
    left: u64,
}

impl NoAffinity {
    /// Counts an accepted start of `b`, which has this reason, if its affinity is
    /// 0. The tasks are some that stood before the start, or all.
    pub fn add(&mut self, table: &Table, b: u8, reason: Reason, tasks: &[Task]) {
        if table.affinity(b) != NO_AFFINITY {
            return;
        }
        assert!(reason.found != 2, "affinity 0 is never found by affinity");
        self.starts[table.mode(b) as usize][usize::from(reason.found)] += 1;
        let alike = |task: &Task| {
            !table.is_single_instance(task.root) && table.affinity(task.root) == NO_AFFINITY
        };
        // R6 and R18: sought by root and by affinity.
        let left = matches!(reason.rule, 6 | 18) && tasks.iter().any(alike);
        self.left += u64::from(left);
    }

    /// The names of those that never came up.
    pub fn missing(&self) -> Vec<String> {
        let mut names = Vec::new();
        for (mode, starts) in MODES.into_iter().zip(self.starts) {
            for (found, starts) in FOUND.into_iter().zip(starts) {
                if starts == 0 {
                    names.push(format!("affinity 0, {mode}, found by {found}"));
                }
            }
        }
        if self.left == 0 {
            names.push("affinity 0 beside a task of affinity 0".to_string());
        }
        names
    }
}

impl fmt::Display for NoAffinity {
    fn fmt(&self, f: &mut fmt::Formatter) -> fmt::Result {
        let [none, root] = FOUND;
        writeln!(f, "affinity 0, found by{none:>11} {root:>15}")?;
        for (mode, [none, root]) in MODES.into_iter().zip(self.starts) {
            writeln!(f, "{mode:<19}{none:>12} {root:>15}")?;
        }
        writeln!(f, "not found beside a task of affinity 0: {}", self.left)
    }
}
