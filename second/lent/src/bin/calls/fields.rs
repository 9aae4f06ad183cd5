//! The fields of a stored session, and how often each one made it unsound.

use std::fmt;

use lent_calls::call::Kind;
use lent_calls::stored::{Stored, SESSION, TASK};

#[derive(Clone, Copy)]
pub enum Field {
    Root,
    Height,
    Screen,
    BeyondHeight,
    BeyondTasks,
    Count,
    Main,
    Edition,
    NoHistory,
}

impl Field {
    const NAMES: [&'static str; 9] = [
        "root",
        "height",
        "screen",
        "storage beyond a height",
        "storage beyond n",
        "n",
        "m",
        "edition",
        "No-History",
    ];

    /// The field that a byte of a sound session belongs to.
    pub fn at(session: &Stored, place: usize) -> Field {
        let (task, byte) = (place / TASK, place % TASK);
        if place == SESSION - 4 {
            Field::Count
        } else if place == SESSION - 3 {
            Field::Main
        } else if place == SESSION - 2 {
            Field::Edition
        } else if place == SESSION - 1 {
            Field::NoHistory
        } else if task >= usize::from(session.n) {
            Field::BeyondTasks
        } else if byte == TASK - 2 {
            Field::Root
        } else if byte == TASK - 1 {
            Field::Height
        } else if byte < usize::from(session.tasks[task].height) {
            Field::Screen
        } else {
            Field::BeyondHeight
        }
    }
}

/// Calls refused by 20, by field and kind of call.
#[derive(Default)]
pub struct Refused([[u64; 8]; 9]);

impl Refused {
    pub fn add(&mut self, field: Field, kind: Kind) {
        self.0[field as usize][kind as usize] += 1;
    }

    /// Whether each field made each kind of call refuse.
    pub fn whole(&self) -> bool {
        self.0.iter().flatten().all(|&calls| calls > 0)
    }
}

impl fmt::Display for Refused {
    fn fmt(&self, f: &mut fmt::Formatter) -> fmt::Result {
        writeln!(f, "refused by 20 for one byte of a session:")?;
        for (name, calls) in Field::NAMES.iter().zip(&self.0) {
            writeln!(f, "  {name}: {}", calls.iter().sum::<u64>())?;
        }
        Ok(())
    }
}
