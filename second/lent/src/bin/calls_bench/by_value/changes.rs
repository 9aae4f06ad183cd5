//! What a start plans to do, and how a plan is carried out.

use lent_calls::stored::{Stored, StoredTask};
use second::edition::EIGHT;
use second::session::MAX_HEIGHT;

#[derive(Clone, Copy, PartialEq)]
pub enum Change {
    Keep,
    Renew,
    Clear,
    Lift,
    Push,
}

#[derive(Clone, Copy)]
pub enum Plan {
    /// Nothing changes: R7.
    Stay,
    New,
    /// The task at this index comes to the front and changes.
    Move(usize, Change),
}

impl Plan {
    /// Whether B is pushed or made new.
    pub fn creates(self) -> bool {
        matches!(
            self,
            Plan::New | Plan::Move(_, Change::Renew | Change::Push)
        )
    }
}

pub fn top(task: &StoredTask) -> u8 {
    task.screens[usize::from(task.height) - 1]
}

pub fn topmost(task: &StoredTask, b: u8) -> Option<usize> {
    let screens = &task.screens[..usize::from(task.height)];
    screens.iter().rposition(|&x| x == b)
}

/// Carries out a plan; gives how many screens close.
pub fn carry_out(session: &mut Stored, b: u8, plan: Plan) -> u8 {
    let n = usize::from(session.n);
    match plan {
        Plan::Stay => 0,
        Plan::New => {
            session.tasks.copy_within(..n, 1);
            session.tasks[0] = renewed(b, b);
            session.n += 1;
            session.main += u8::from(session.main != 0);
            0
        }
        Plan::Move(i, change) => {
            let task = session.tasks[i];
            session.tasks.copy_within(..i, 1);
            session.tasks[0] = task;
            session.main = match usize::from(session.main) {
                main if main == i + 1 => 1,
                main if main != 0 && main <= i => session.main + 1,
                _ => session.main,
            };
            change_screens(&mut session.tasks[0], b, change)
        }
    }
}

fn renewed(root: u8, b: u8) -> StoredTask {
    let mut screens = [0; MAX_HEIGHT];
    screens[0] = b;
    StoredTask {
        root,
        height: 1,
        screens,
    }
}

/// Changes the screens of a task; gives how many close.
fn change_screens(task: &mut StoredTask, b: u8, change: Change) -> u8 {
    let height = usize::from(task.height);
    match (change, topmost(task, b)) {
        (Change::Renew, _) => {
            *task = renewed(task.root, b);
            return height as u8;
        }
        (Change::Push, _) => {
            task.screens[height] = b;
            task.height += 1;
        }
        (Change::Clear, Some(at)) => {
            task.screens[at + 1..height].fill(0);
            task.height = at as u8 + 1;
            return (height - 1 - at) as u8;
        }
        (Change::Lift, Some(at)) => {
            task.screens.copy_within(at + 1..height, at);
            task.screens[height - 1] = b;
        }
        _ => {}
    }
    0
}

// ---- closing

/// The screen that was in front closes where it stands after the plan; gives
/// how many close.
pub fn close_mark(session: &mut Stored, plan: Plan, same: bool) -> u8 {
    match plan {
        Plan::Stay | Plan::Move(0, Change::Keep) => close(session, 0, 0),
        Plan::Move(0, Change::Clear | Change::Lift) if same => close(session, 0, 0),
        Plan::Move(0, Change::Lift | Change::Push) => close(session, 0, 1),
        Plan::Move(0, _) => 0,
        _ => close(session, 1, 0),
    }
}

/// The screen below so many others of the task at i goes, and a task left empty;
/// gives that one closes.
pub fn close(session: &mut Stored, i: usize, below: usize) -> u8 {
    let task = &mut session.tasks[i];
    let height = usize::from(task.height);
    if height > 1 {
        let at = height - 1 - below;
        task.screens.copy_within(at + 1..height, at);
        task.screens[height - 1] = 0;
        task.height -= 1;
        return 1;
    }
    let n = usize::from(session.n);
    session.tasks.copy_within(i + 1..n, i);
    session.tasks[n - 1] = Stored::FRESH.tasks[0];
    session.n -= 1;
    if session.n == 0 {
        session.edition = EIGHT;
    }
    session.main = match usize::from(session.main) {
        main if main == i + 1 => 0,
        main if main > i + 1 => session.main - 1,
        _ => session.main,
    };
    1
}
