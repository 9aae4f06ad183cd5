//! Follows each task along the recording, by what stands before and after a record.

use super::data::{Moment, TaskView};

/// The front task is the one that was in front.
pub const STAYS: usize = 0;
/// The front task was made by the record.
pub const NEW: usize = 1;

/// The rules that make a task. A launch needs none: no task stands before it.
const MAKING: [u8; 4] = [2, 6, 11, 18];

/// What a record did to the stacks.
#[derive(Debug, PartialEq, Eq)]
pub struct Step {
    /// The number of each task, front first: the first task made is 1.
    pub ids: Vec<u64>,
    /// `STAYS`, `NEW`, or the place (2 or more) from which the front task came.
    pub came: usize,
    /// Whether the front screen was opened by the record.
    pub opened: bool,
}

/// The tasks that stand, with their numbers.
pub struct Follower<'a> {
    tasks: &'a [TaskView],
    ids: Vec<u64>,
    made: u64,
}

impl<'a> Follower<'a> {
    /// Begins with these tasks.
    pub fn new(tasks: &'a [TaskView]) -> Follower<'a> {
        let made = tasks.len() as u64;
        Follower {
            tasks,
            ids: (1..=made).collect(),
            made,
        }
    }

    /// Goes on to the next record.
    pub fn step(&mut self, moment: &'a Moment) -> Step {
        if moment.refusal.is_some() {
            return Step {
                ids: self.ids.clone(),
                came: STAYS,
                opened: false,
            };
        }
        let places = trace(self.tasks, moment);
        let opened = height(&moment.tasks) + usize::from(moment.closed) > height(self.tasks);
        let came = match places.first() {
            None | Some(Some(0)) => STAYS,
            Some(None) => NEW,
            Some(Some(before)) => before + 1,
        };
        self.ids = places.into_iter().map(|place| self.number(place)).collect();
        self.tasks = &moment.tasks;
        Step {
            ids: self.ids.clone(),
            came,
            opened,
        }
    }

    fn number(&mut self, place: Option<usize>) -> u64 {
        place.map_or_else(
            || {
                self.made += 1;
                self.made
            },
            |before| self.ids[before],
        )
    }
}

fn height(tasks: &[TaskView]) -> usize {
    tasks.iter().map(|task| task.screens.len()).sum()
}

/// Where each task stood before, counted from 0; `None` for a new one. A record
/// moves one task to the front, and at most the task that was in front goes.
fn trace(before: &[TaskView], moment: &Moment) -> Vec<Option<usize>> {
    let now = &moment.tasks;
    let makes = MAKING.contains(&moment.rule);
    let fresh = usize::from(makes).min(now.len());
    let kept = now.len() - fresh;
    let unknown = vec![None; now.len()];
    let Some(went) = before
        .len()
        .checked_sub(kept)
        .filter(|went| *went <= 1 || kept == 0)
    else {
        return unknown;
    };
    if makes {
        return std::iter::repeat_n(None, fresh)
            .chain((went..before.len()).map(Some))
            .collect();
    }
    let lifted = |front: usize| -> Vec<usize> {
        let others = (went..before.len()).filter(|place| *place != front);
        std::iter::once(front).chain(others).take(kept).collect()
    };
    (went..before.len())
        .map(lifted)
        .find(|places| fits(before, now, places))
        .map_or(unknown, |places| places.into_iter().map(Some).collect())
}

/// Every root stays, and so does a task that neither was in front nor is.
fn fits(before: &[TaskView], now: &[TaskView], places: &[usize]) -> bool {
    now.iter()
        .zip(places)
        .enumerate()
        .all(|(at, (task, &place))| {
            let old = &before[place];
            task.root == old.root && (at == 0 || place == 0 || task.screens == old.screens)
        })
}
