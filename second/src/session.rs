//! Sessions: a list of tasks, front first, each a stack of screens; what makes
//! a session sound; the small moves that the rules are made of, which count the
//! screens that they create and close; the answer.

use std::ops::Add;

use crate::edition::{EDITIONS, EIGHT};
use crate::{Mode, Refusal, Table};

/// The most tasks a session holds.
pub const MAX_TASKS: usize = 16;
/// The most screens a task holds.
pub const MAX_HEIGHT: usize = 32;

/// A screen as it stands in a task. The mark is set only while a start is under
/// way that closes its caller, on that caller.
#[derive(Clone, Copy, Debug, PartialEq, Eq, Hash)]
pub struct Screen {
    pub number: u8,
    pub(crate) marked: bool,
}

impl Screen {
    pub fn new(number: u8) -> Screen {
        Screen {
            number,
            marked: false,
        }
    }
}

/// How many screens a call, or a part of it, created and how many it closed.
#[derive(Clone, Copy, Debug, Default, PartialEq, Eq)]
pub struct Count {
    pub created: u8,
    pub closed: u8,
}

impl Count {
    pub(crate) const NONE: Count = Count {
        created: 0,
        closed: 0,
    };

    const ONE_CREATED: Count = Count {
        created: 1,
        closed: 0,
    };

    fn closed(screens: usize) -> Count {
        Count {
            created: 0,
            closed: screens as u8,
        }
    }
}

impl Add for Count {
    type Output = Count;

    fn add(self, other: Count) -> Count {
        Count {
            created: self.created + other.created,
            closed: self.closed + other.closed,
        }
    }
}

/// A task: the screen that created it, and its screens, bottom first, so that
/// the top is the last of the vector.
#[derive(Clone, Debug, PartialEq, Eq, Hash)]
pub struct Task {
    pub root: u8,
    pub screens: Vec<Screen>,
}

impl Task {
    /// A task from its root and its screens, top first as the paper writes them.
    pub fn new(root: u8, top_first: &[u8]) -> Task {
        let screens = top_first
            .iter()
            .rev()
            .map(|&number| Screen::new(number))
            .collect();
        Task { root, screens }
    }

    pub fn height(&self) -> usize {
        self.screens.len()
    }

    /// The number of the top screen, if the task has one.
    pub fn top(&self) -> Option<u8> {
        self.screens.last().map(|screen| screen.number)
    }

    /// Where the topmost `b` stands, counted from the bottom.
    pub(crate) fn topmost(&self, b: u8) -> Option<usize> {
        self.screens.iter().rposition(|screen| screen.number == b)
    }

    pub(crate) fn holds(&self, b: u8) -> bool {
        self.topmost(b).is_some()
    }

    pub(crate) fn is_full(&self) -> bool {
        self.height() >= MAX_HEIGHT
    }

    pub(crate) fn push(&mut self, b: u8) -> Count {
        self.screens.push(Screen::new(b));
        Count::ONE_CREATED
    }

    /// Removes all screens.
    pub(crate) fn empty(&mut self) -> Count {
        self.cut(0)
    }

    /// Removes all above the topmost `b` and keeps that `b`.
    pub(crate) fn clear_to(&mut self, b: u8) -> Count {
        match self.topmost(b) {
            Some(at) => self.cut(at + 1),
            None => Count::NONE,
        }
    }

    /// Removes the screens above the lowest `kept`.
    fn cut(&mut self, kept: usize) -> Count {
        let before = self.height();
        self.screens.truncate(kept);
        Count::closed(before - self.height())
    }

    /// Takes the topmost `b` to the top.
    pub(crate) fn lift(&mut self, b: u8) -> Count {
        if let Some(at) = self.topmost(b) {
            self.screens[at..].rotate_left(1);
        }
        Count::NONE
    }

    /// The part of soundness that concerns one task alone.
    fn is_sound(&self, table: &Table) -> bool {
        (1..=MAX_HEIGHT).contains(&self.height())
            && table.has(self.root)
            && self.screens.iter().all(|screen| table.has(screen.number))
            && if table.is_single_instance(self.root) {
                self.height() == 1 && self.screens[0].number == self.root
            } else {
                !self
                    .screens
                    .iter()
                    .any(|screen| table.is_single_instance(screen.number))
            }
    }
}

/// A session: tasks, front first; the main place, counted from 1, or 0 when the
/// task made by launch is gone; the edition that launch named, 8 when it is empty;
/// whether the front screen was pushed or made new by a start with the No-History
/// flag.
#[derive(Clone, Debug, PartialEq, Eq, Hash)]
pub struct Session {
    pub tasks: Vec<Task>,
    pub main: usize,
    pub edition: u8,
    pub no_history: bool,
}

impl Session {
    /// The fresh session: no tasks.
    pub fn fresh() -> Session {
        Session {
            tasks: Vec::new(),
            main: 0,
            edition: EIGHT,
            no_history: false,
        }
    }

    pub fn is_empty(&self) -> bool {
        self.tasks.is_empty()
    }

    /// Whether the session is sound under the table.
    pub fn is_sound(&self, table: &Table) -> bool {
        self.tasks.len() <= MAX_TASKS
            && self.tasks.iter().all(|task| task.is_sound(table))
            && self.single_roots_differ(table)
            && self.main <= self.tasks.len()
            && (self.main == 0 || self.tasks[self.main - 1].root == table.main())
            && self.edition_is_sound()
            && !(self.is_empty() && self.no_history)
    }

    /// The edition is one that is kept, and an empty session has 8.
    fn edition_is_sound(&self) -> bool {
        EDITIONS.contains(&self.edition) && (!self.is_empty() || self.edition == EIGHT)
    }

    /// No single-task or single-instance screen is the root of two tasks.
    fn single_roots_differ(&self, table: &Table) -> bool {
        self.tasks
            .iter()
            .enumerate()
            .all(|(i, task)| match table.mode(task.root) {
                Mode::Standard | Mode::SingleTop => true,
                Mode::SingleTask | Mode::SingleInstance => self.tasks[i + 1..]
                    .iter()
                    .all(|other| other.root != task.root),
            })
    }

    /// Brings the task at this index to the front.
    pub(crate) fn move_to_front(&mut self, index: usize) -> Count {
        self.tasks[..=index].rotate_right(1);
        let place = index + 1;
        if self.main == place {
            self.main = 1;
        } else if self.main >= 1 && self.main < place {
            self.main += 1;
        }
        Count::NONE
    }

    /// Puts a task of `b` alone in front.
    pub(crate) fn new_task(&mut self, b: u8) -> Count {
        self.tasks.insert(0, Task::new(b, &[b]));
        if self.main >= 1 {
            self.main += 1;
        }
        Count::ONE_CREATED
    }

    /// Removes one screen; a task left empty goes, and with the last task the
    /// edition.
    pub(crate) fn remove_screen(&mut self, index: usize, at: usize) -> Count {
        self.tasks[index].screens.remove(at);
        if self.tasks[index].screens.is_empty() {
            self.tasks.remove(index);
            let place = index + 1;
            if self.main == place {
                self.main = 0;
            } else if self.main > place {
                self.main -= 1;
            }
        }
        if self.is_empty() {
            self.edition = EIGHT;
        }
        Count::closed(1)
    }

    /// The answer of a call that was not refused, closed so many screens and
    /// left this session.
    pub fn answer(&self, closed: u8) -> Answer {
        match self.tasks.first() {
            None => Answer {
                closed,
                edition: self.edition,
                ..Answer::default()
            },
            Some(front) => Answer {
                refusal: 0,
                screen: front.top().unwrap_or(0),
                root: front.root,
                height: front.height() as u8,
                tasks: self.tasks.len() as u8,
                main: self.main as u8,
                closed,
                edition: self.edition,
                no_history: u8::from(self.no_history),
            },
        }
    }
}

/// What a call answers: nine numbers.
#[derive(Clone, Copy, Debug, Default, PartialEq, Eq, Hash)]
pub struct Answer {
    pub refusal: u8,
    pub screen: u8,
    pub root: u8,
    pub height: u8,
    pub tasks: u8,
    pub main: u8,
    /// The screens that the call removed.
    pub closed: u8,
    /// The edition after the call; 0 where it was refused.
    pub edition: u8,
    /// 1 if the front screen after the call is a No-History one.
    pub no_history: u8,
}

impl Answer {
    /// The answer of a refused call.
    pub fn refused(refusal: Refusal) -> Answer {
        Answer {
            refusal: refusal as u8,
            ..Answer::default()
        }
    }

    /// The nine numbers in their order.
    pub fn numbers(self) -> [u8; 9] {
        [
            self.refusal,
            self.screen,
            self.root,
            self.height,
            self.tasks,
            self.main,
            self.closed,
            self.edition,
            self.no_history,
        ]
    }
}
