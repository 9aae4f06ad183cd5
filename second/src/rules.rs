//! Launch, Back, start and finishing start, on a sound session under a good
//! table. `decide` chooses the first rule that fits, `check_space` says whether
//! there is room for it, `apply` carries it out.

use crate::edition::{self, SEVEN, SIX};
use crate::session::{Count, MAX_TASKS};
use crate::table::{
    ALL_FLAGS, CLEAR_TASK, CLEAR_TOP, MULTIPLE_TASK, NEW_TASK, NO_AFFINITY, NO_HISTORY,
    REORDER_TO_FRONT, SINGLE_TOP,
};
use crate::{Mode, Refusal, Session, Table};

/// The rules of start, by the paper's names.
#[derive(Clone, Copy, Debug, PartialEq, Eq, Hash, PartialOrd, Ord)]
pub enum Rule {
    R1 = 1,
    R2,
    R3,
    R4,
    R5,
    R6,
    R7,
    R8,
    R9,
    R10,
    R11,
    R12,
    R13,
    R14,
    R15,
    R16,
    R17,
    R18,
}

use Rule::*;

/// By what a task is found.
#[derive(Clone, Copy, Debug, PartialEq, Eq)]
pub enum By {
    Root = 1,
    Affinity,
}

/// A task that is found: its place, from 1, before the start.
#[derive(Clone, Copy, Debug, PartialEq, Eq)]
pub struct Found {
    pub place: u8,
    pub by: By,
}

impl Found {
    fn new(index: usize, by: By) -> Found {
        let place = index as u8 + 1;
        Found { place, by }
    }

    fn index(self) -> usize {
        usize::from(self.place) - 1
    }
}

/// The rule that a start uses, and the task found for it, where one is sought
/// and found.
#[derive(Clone, Copy, Debug, PartialEq, Eq)]
pub struct Choice {
    pub rule: Rule,
    pub found: Option<Found>,
}

impl Choice {
    /// The index of the task found, or 0, the front task's.
    fn index(self) -> usize {
        self.found.map_or(0, Found::index)
    }
}

/// What a call did that was not refused.
#[derive(Clone, Copy, Debug, Default, PartialEq, Eq)]
pub struct Done {
    /// What a start chose; other calls choose nothing.
    pub choice: Option<Choice>,
    pub count: Count,
}

impl Session {
    /// Launch: one task of the main screen alone, in the edition that the byte
    /// names. An empty session has no No-History front to clear.
    pub fn launch(&mut self, table: &Table, edition: u8) -> Result<Done, Refusal> {
        if !self.is_empty() {
            return Err(Refusal::NotEmpty);
        }
        self.edition = edition::named(edition)?;
        let count = self.new_task(table.main());
        self.main = 1;
        let choice = None;
        Ok(Done { choice, count })
    }

    /// Back: removes the front screen.
    pub fn back(&mut self) -> Result<Done, Refusal> {
        let front = self.tasks.first().ok_or(Refusal::Empty)?;
        let count = self.remove_screen(0, front.height() - 1);
        self.no_history = false;
        let choice = None;
        Ok(Done { choice, count })
    }

    /// Start of `b`. From a No-History front it is done as a finishing start, save
    /// where R7 fits: there nothing changes.
    pub fn start(&mut self, table: &Table, b: u8, flags: u32) -> Result<Done, Refusal> {
        let choice = self.plan(table, b, flags)?;
        if choice.rule == R7 {
            let (choice, count) = (Some(choice), Count::NONE);
            return Ok(Done { choice, count });
        }
        Ok(self.carry_out(choice, b, flags, self.no_history))
    }

    /// Start of `b` by a screen that closes itself.
    pub fn finishing_start(&mut self, table: &Table, b: u8, flags: u32) -> Result<Done, Refusal> {
        let choice = self.plan(table, b, flags)?;
        Ok(self.carry_out(choice, b, flags, true))
    }

    /// Carries out a start for which there is room, and closes the caller if that
    /// is to be. A `b` that was pushed or made new is not the caller.
    fn carry_out(&mut self, choice: Choice, b: u8, flags: u32, closes: bool) -> Done {
        if closes {
            if let Some(front) = self.tasks[0].screens.last_mut() {
                front.marked = true;
            }
        }
        let mut count = self.apply(choice, b);
        self.no_history = flags & NO_HISTORY != 0 && count.created > 0;
        if closes {
            count = count + self.remove_marked();
        }
        let choice = Some(choice);
        Done { choice, count }
    }

    /// What a start of `b` chooses, or why it is refused. Changes nothing.
    pub fn plan(&self, table: &Table, b: u8, flags: u32) -> Result<Choice, Refusal> {
        if !table.has(b) {
            return Err(Refusal::NoSuchScreen);
        }
        if flags & !ALL_FLAGS != 0 {
            return Err(Refusal::FlagBits);
        }
        if self.is_empty() {
            return Err(Refusal::Empty);
        }
        let choice = self.decide(table, b, flags);
        self.check_space(choice)?;
        Ok(choice)
    }

    /// The first rule that fits, and the task found. The session is not empty.
    pub fn decide(&self, table: &Table, b: u8, flags: u32) -> Choice {
        match table.mode(b) {
            Mode::SingleInstance => {
                let found = self.by_root(b);
                let rule = if found.is_some() { R1 } else { R2 };
                Choice { rule, found }
            }
            Mode::SingleTask => self.decide_single_task(table, b, flags),
            Mode::Standard | Mode::SingleTop => {
                let caller_alone = self.tasks[0]
                    .top()
                    .is_some_and(|a| table.is_single_instance(a));
                if flags & NEW_TASK != 0 || caller_alone {
                    self.decide_apart(table, b, flags)
                } else {
                    let rule = self.decide_not_apart(table, b, flags);
                    Choice { rule, found: None }
                }
            }
        }
    }

    fn decide_single_task(&self, table: &Table, b: u8, flags: u32) -> Choice {
        let found = self.sought(table, b);
        let rule = match found {
            None => R6,
            Some(_) if flags & CLEAR_TASK != 0 => R3,
            Some(found) if self.tasks[found.index()].holds(b) => R4,
            Some(_) => R5,
        };
        Choice { rule, found }
    }

    fn decide_not_apart(&self, table: &Table, b: u8, flags: u32) -> Rule {
        let front = &self.tasks[0];
        let clear_top = flags & CLEAR_TOP != 0;
        let reorder = flags & REORDER_TO_FRONT != 0;
        if front.top() == Some(b) && (is_single(table, b, flags) || reorder || clear_top) {
            R7
        } else if clear_top && front.holds(b) {
            R8
        } else if reorder && front.holds(b) {
            R9
        } else {
            R10
        }
    }

    fn decide_apart(&self, table: &Table, b: u8, flags: u32) -> Choice {
        if flags & MULTIPLE_TASK != 0 {
            let (rule, found) = (R11, None);
            return Choice { rule, found };
        }
        let found = self.sought(table, b);
        let rule = match found {
            None => R18,
            Some(found) => self.decide_found(table, b, flags, found),
        };
        Choice { rule, found }
    }

    /// The rule of a start apart, for which a task is found.
    fn decide_found(&self, table: &Table, b: u8, flags: u32, found: Found) -> Rule {
        let task = &self.tasks[found.index()];
        let clear_top = flags & CLEAR_TOP != 0;
        if flags & CLEAR_TASK != 0 {
            R12
        } else if clear_top && task.holds(b) {
            R13
        } else if clear_top {
            R14
        } else if found.by == By::Root && usize::from(found.place) != self.main {
            R15
        } else if is_single(table, b, flags) && task.top() == Some(b) {
            R16
        } else {
            R17
        }
    }

    /// Sought by root, then by affinity; in edition 6 by affinity only, but for a
    /// single-task screen that has none, which is sought by root there too.
    fn sought(&self, table: &Table, b: u8) -> Option<Found> {
        let alone = table.mode(b) == Mode::SingleTask && table.affinity(b) == NO_AFFINITY;
        if self.edition == SIX && !alone {
            self.by_affinity(table, b)
        } else {
            self.by_root(b).or_else(|| self.by_affinity(table, b))
        }
    }

    /// The first task from the front whose root is `b`.
    fn by_root(&self, b: u8) -> Option<Found> {
        let index = self.tasks.iter().position(|task| task.root == b)?;
        Some(Found::new(index, By::Root))
    }

    /// The first task from the front whose root is not single-instance and has
    /// the affinity of `b`.
    ///
    /// Affinity 0 is no affinity: "a screen of affinity 0 is never found by
    /// affinity, nor is a task whose root has affinity 0". Affinities are compared
    /// for equality, so the one test of `b` is both.
    fn by_affinity(&self, table: &Table, b: u8) -> Option<Found> {
        let affinity = table.affinity(b);
        if affinity == NO_AFFINITY {
            return None;
        }
        let index = self.tasks.iter().position(|task| {
            !table.is_single_instance(task.root) && table.affinity(task.root) == affinity
        })?;
        Some(Found::new(index, By::Affinity))
    }

    /// Whether there is room for what the rule needs.
    fn check_space(&self, choice: Choice) -> Result<(), Refusal> {
        match choice.rule {
            R2 | R6 | R11 | R18 if self.tasks.len() >= MAX_TASKS => Err(Refusal::TasksFull),
            R5 | R10 | R14 | R17 if self.tasks[choice.index()].is_full() => Err(Refusal::TaskFull),
            _ => Ok(()),
        }
    }

    /// Carries out a rule for which there is room.
    fn apply(&mut self, choice: Choice, b: u8) -> Count {
        let index = choice.index();
        match choice.rule {
            R7 => Count::NONE,
            R1 | R15 | R16 => self.move_to_front(index),
            R2 | R6 | R11 | R18 => self.new_task(b),
            R3 | R12 => self.move_to_front(index) + self.tasks[0].empty() + self.tasks[0].push(b),
            R4 | R13 => self.move_to_front(index) + self.tasks[0].clear_to(b),
            R5 | R14 | R17 => self.move_to_front(index) + self.tasks[0].push(b),
            R8 => self.tasks[0].clear_to(b),
            R9 if self.edition == SEVEN && self.main == 1 => {
                self.tasks[0].empty() + self.tasks[0].push(b)
            }
            R9 => self.tasks[0].lift(b),
            R10 => self.tasks[0].push(b),
        }
    }

    /// Removes the marked screen, if it still stands, as Back would in its task.
    fn remove_marked(&mut self) -> Count {
        for index in 0..self.tasks.len() {
            let marked = self.tasks[index]
                .screens
                .iter()
                .position(|screen| screen.marked);
            if let Some(at) = marked {
                return self.remove_screen(index, at);
            }
        }
        Count::NONE
    }
}

/// Single: the mode of `b` is single-top, or STP is set.
fn is_single(table: &Table, b: u8, flags: u32) -> bool {
    table.mode(b) == Mode::SingleTop || flags & SINGLE_TOP != 0
}
