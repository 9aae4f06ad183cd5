//! The line of `show`:
//!
//! ```text
//!      4  finish-start 0 NEW_TASK     *0:[0,1,0]  closed 1: 3  R17, found at place 2 by root  | 3 0 0 0 3 1 1 1 8 0
//! ```
//!
//! The record's number, its call, the tasks front first as `root:[top..bottom]`
//! with a star on the main one, then what there is to tell, and behind the last
//! ` | ` the player's line.

use milchkompass::{Edition, FoundBy, Played, Reason, Refusal, Replay};

use crate::closed;
use crate::names::Names;
use crate::pen::{Pen, SPARE};
use crate::words::{self, written, Calls, Reading};

/// The width of the number and that of the call; longer ones move what follows.
const NUMBER: usize = 6;
const CALL: usize = 26;

/// The longest line, but for its screens: number, call, what is told, and the
/// player's line.
const LONGEST: usize = 512 + words::LONGEST;

/// More screens than a line has: those that a session can hold, each task's root,
/// fewer than 64 that close, and the call's.
const SCREENS: usize = 16 * (1 + 32) + 64;

/// A record that was played: its bytes, its answer, what stood before it where it
/// was accepted, what stands after it, and for a start that was accepted why it
/// went so.
pub struct Shown<'a> {
    pub record: &'a [u8],
    pub reading: Reading,
    pub played: Played,
    pub before: &'a Replay,
    pub after: &'a Replay,
    pub reason: Option<Reason>,
}

impl Shown<'_> {
    /// Whether a start closed its caller, since that leaves no history. Only by R7
    /// it does not, which closes nothing.
    pub fn caller_closed(&self) -> bool {
        self.record[0] == 2 && self.before.no_history() && self.played.closed() > 0
    }

    /// Whether the task that was found for a start is gone: it was the caller's,
    /// which stood there alone and closed.
    pub fn found_task_went(&self) -> bool {
        let found = self.reason.and_then(|reason| reason.found);
        let front = found.is_some_and(|found| found.place == 1);
        front && self.after.tasks().len() < self.before.tasks().len()
    }

    /// The screens that closed, in the order of those that stood.
    pub fn gone(&self) -> Vec<u8> {
        let (before, after) = (standing(self.before), standing(self.after));
        closed::screens(before, after, self.record[1], self.played.closed())
    }
}

/// Writes lines.
pub struct Lines<'a> {
    names: &'a Names,
    calls: Calls<'a>,
    /// The words of each refusal, by its number.
    refusals: Vec<String>,
    line: Vec<u8>,
}

impl<'a> Lines<'a> {
    pub fn new(names: &'a Names) -> Lines<'a> {
        // Each screen has a comma or a space, and each task a star, a colon and two
        // brackets.
        let screens = SCREENS * (names.longest() + 4);
        let words = |number| Refusal::try_from(number).map_or(String::new(), |r| r.to_string());
        Lines {
            names,
            calls: Calls::new(names),
            refusals: (0..=u8::MAX).map(words).collect(),
            line: vec![0; LONGEST + screens + SPARE],
        }
    }

    /// The line of a record.
    pub fn line(&mut self, number: u64, shown: &Shown) -> &[u8] {
        let mut pen = Pen::new(&mut self.line);
        pen.number(number, NUMBER);
        pen.put(b"  ");
        let from = pen.at();
        self.calls.write(&mut pen, shown.record, shown.reading);
        pen.pad(from, CALL);
        pen.put(b"  ");
        write_stacks(&mut pen, shown.after, self.names);
        if shown.played.closed() > 0 {
            write_closed(&mut pen, shown, self.names);
        }
        write_told(&mut pen, shown.played, shown.reason, &self.refusals);
        write_player(&mut pen, shown.record[0], shown.played);
        pen.put(b"\n");
        let end = pen.at();
        &self.line[..end]
    }

    /// The line of a recording that begins with no table.
    pub fn stopped(&mut self, played: Played) -> &[u8] {
        let mut pen = Pen::new(&mut self.line);
        pen.number(0, NUMBER);
        pen.put(b"  no table");
        write_told(&mut pen, played, None, &self.refusals);
        write_player(&mut pen, 0, played);
        pen.put(b"\n");
        let end = pen.at();
        &self.line[..end]
    }
}

/// Adds the tasks, front first, and the edition and the mark where they are not
/// those of an empty session.
#[inline(always)]
fn write_stacks(pen: &mut Pen, replay: &Replay, names: &Names) {
    let main = usize::from(replay.main_place());
    for (i, task) in replay.tasks().enumerate() {
        if i + 1 == main {
            pen.put(b"*");
        }
        names.write(pen, task.root);
        pen.put(b":[");
        for screen in task.screens.iter().rev() {
            names.write_listed(pen, *screen);
        }
        // No task is without a screen: its last comma goes.
        pen.back();
        pen.put(b"] ");
    }
    if replay.tasks().len() == 0 {
        pen.put(b"empty ");
    }
    pen.back();
    if replay.edition() != Edition::default() {
        pen.put(b"  edition ");
        pen.byte(replay.edition().number());
    }
    if replay.no_history() {
        pen.put(b"  no history");
    }
}

/// Adds how many screens closed, and which, and whether the caller did.
fn write_closed(pen: &mut Pen, shown: &Shown, names: &Names) {
    pen.put(b"  closed ");
    pen.byte(shown.played.closed());
    pen.put(b": ");
    for screen in shown.gone() {
        names.write_listed(pen, screen);
    }
    pen.back();
    if shown.caller_closed() {
        pen.put(b"  the caller closed");
    }
}

/// The screens that stand, front first.
fn standing(replay: &Replay) -> impl Iterator<Item = u8> + Clone + '_ {
    let tasks = replay.tasks();
    tasks.flat_map(|task| task.screens.iter().rev().copied())
}

/// Adds the rule and how the task was found, or the refusal.
#[inline(always)]
fn write_told(pen: &mut Pen, played: Played, reason: Option<Reason>, refusals: &[String]) {
    if let Some(refusal) = played.refusal() {
        pen.put(b"  ");
        return pen.long(&refusals[usize::from(refusal.number())]);
    }
    if let Some(reason) = reason {
        pen.put(b"  ");
        write_rule(pen, reason);
    }
}

/// Adds the rule's number, and how a task was found.
#[inline(always)]
fn write_rule(pen: &mut Pen, reason: Reason) {
    pen.put(b"R");
    pen.byte(reason.rule.number());
    if let Some(found) = reason.found {
        pen.put(b", found at place ");
        pen.byte(found.place);
        match found.by {
            FoundBy::Root => pen.put(b" by root"),
            FoundBy::Affinity => pen.put(b" by affinity"),
        }
    }
}

/// Adds the player's line behind a bar.
#[inline(always)]
fn write_player(pen: &mut Pen, kind: u8, played: Played) {
    let numbers = played.numbers();
    pen.put(b"  | ");
    if kind < 10 && numbers.iter().all(|number| *number < 10) {
        let mut digits = *b"0 0 0 0 0 0 0 0 0 0";
        digits[0] += kind;
        for (i, number) in numbers.iter().enumerate() {
            digits[2 + 2 * i] += number;
        }
        return pen.put(&digits);
    }
    pen.byte(kind);
    for number in numbers {
        pen.put(b" ");
        pen.byte(number);
    }
}

/// The rule's number and how a task was found, or nothing.
pub fn rule_words(reason: Option<Reason>) -> String {
    reason.map_or(String::new(), |reason| {
        written(LONGEST, |pen| write_rule(pen, reason))
    })
}

/// The player's line.
pub fn player_line(kind: u8, played: Played) -> String {
    let mut text = kind.to_string();
    for number in played.numbers() {
        text += &format!(" {number}");
    }
    text
}
