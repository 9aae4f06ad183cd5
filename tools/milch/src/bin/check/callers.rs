//! What is told of the task that was found for a start, and of its caller.

use milch::line::Shown;
use milch::moments::play;
use milch::opening::{self, Opening};
use milch::words::Reading;

use crate::make;
use crate::random::Random;

/// How often each came up.
#[derive(Default)]
struct Seen {
    came: u64,
    went: u64,
    closed: u64,
}

/// Plays random recordings of so many records together.
pub fn check(records: u64, seed: u64) -> Result<String, String> {
    let (mut random, mut seen, mut played) = (Random::new(seed), Seen::default(), 0);
    while played < records {
        let recording = make::recording(&mut random, 1000);
        let Opening::Table(mut replay) = opening::begin(&recording) else {
            continue;
        };
        let mut left = &recording[replay.table().len()..];
        while !left.is_empty() {
            let (mut wrong, mut number) = (None, 0);
            let used = play(&mut replay, left, Reading::Player, |shown| {
                number = shown.record[0];
                wrong = seen.add(&shown);
            });
            if let Some(wrong) = wrong {
                return Err(format!("record {played} of all, of kind {number}: {wrong}"));
            }
            left = &left[used..];
            played += 1;
        }
    }
    let Seen { came, went, closed } = seen;
    if came.min(went).min(closed) == 0 {
        return Err(format!("something never came up: {came}, {went}, {closed}"));
    }
    Ok(format!(
        "of {played} records, {came} tasks found came to the front, {went} went with their caller, \
         and {closed} callers left no history"
    ))
}

impl Seen {
    /// What is wrong with a record, if anything is.
    fn add(&mut self, shown: &Shown) -> Option<&'static str> {
        let found = shown.reason.and_then(|reason| reason.found);
        if let Some(found) = found.filter(|_| shown.played.refusal().is_none()) {
            let task = shown.before.tasks().nth(usize::from(found.place) - 1);
            let front = shown.after.tasks().next();
            let same = task.map(|task| task.root) == front.map(|front| front.root);
            let count = if shown.found_task_went() {
                &mut self.went
            } else {
                &mut self.came
            };
            *count += 1;
            if !same && !shown.found_task_went() {
                return Some("the task found is not in front");
            }
        }
        if shown.caller_closed() {
            self.closed += 1;
            let caller = shown.before.tasks().next()?.screens.last()?;
            if !shown.gone().contains(caller) {
                return Some("the caller is not among those that closed");
            }
        }
        None
    }
}
