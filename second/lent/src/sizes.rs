//! The sessions that are measured, sound under the table of the paper's
//! examples.

use second::session::{MAX_HEIGHT, MAX_TASKS};
use second::{Session, Task};

#[derive(Clone, Copy)]
pub enum Size {
    /// One task of 3 screens.
    Small,
    /// 4 tasks of 6.
    Typical,
    /// 16 tasks of 32.
    Full,
}

impl Size {
    pub const ALL: [Size; 3] = [Size::Small, Size::Typical, Size::Full];

    pub fn name(self) -> &'static str {
        match self {
            Size::Small => "small",
            Size::Typical => "typical",
            Size::Full => "full",
        }
    }

    /// Roots are 0, 5, 3 and 1 in turn, but 3, a single-task screen, only once;
    /// the last task of root 0 is the main one.
    pub fn session(self) -> Session {
        let (count, height) = match self {
            Size::Small => (1, 3),
            Size::Typical => (4, 6),
            Size::Full => (MAX_TASKS, MAX_HEIGHT),
        };
        let tasks: Vec<Task> = (0..count).map(|place| task(place, height)).collect();
        let main = tasks.iter().rposition(|task| task.root == 0).unwrap_or(0) + 1;
        Session {
            tasks,
            main,
            ..Session::fresh()
        }
    }
}

fn task(place: usize, height: usize) -> Task {
    let root = match place % 4 {
        0 => 0,
        1 => 5,
        2 if place == 2 => 3,
        _ => 1,
    };
    let mut screens: Vec<u8> = (0..height).map(|at| [2, 1, 0, 5][at % 4]).collect();
    screens[height - 1] = root;
    Task::new(root, &screens)
}
