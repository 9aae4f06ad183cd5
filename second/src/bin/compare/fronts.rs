//! How often calls came from a No-History front, and how often a refused call or a
//! look kept one.

use std::fmt;

use second::no_history::{self, NoHistory, Start, BY_FINISHING_START, BY_START};
use second::play::Played;
use second::{Answer, Reason};

use crate::counts::{flags, FINISHING_START, KINDS, START};

const BACK: u8 = 4;
const LOOK: u8 = 5;

/// The refusals that a call on a session that is not empty can get, and 0.
const KEPT: [u8; 7] = [0, 3, 4, 9, 22, 23, 24];

pub struct Fronts {
    /// Accepted starts and finishing starts.
    starts: [NoHistory; 2],
    /// Looks that show a No-History front, by the refusal of the call before.
    kept: [u64; 31],
    /// Backs from one, by whether the session is left empty.
    backs: [u64; 2],
    /// The refusal of the last call.
    last: u8,
}

impl Default for Fronts {
    fn default() -> Fronts {
        Fronts {
            starts: [BY_START, BY_FINISHING_START].map(NoHistory::new),
            kept: [0; 31],
            backs: [0; 2],
            last: 0,
        }
    }
}

impl Fronts {
    /// Counts one record by the answer of a look before it.
    pub fn add(&mut self, before: &Answer, record: &[u8], played: &Played) {
        let Played { kind, answer, .. } = *played;
        if let (0, Some(reason)) = (answer.refusal, played.reason) {
            self.add_start(before, record, reason, played);
        }
        if kind == LOOK && answer.no_history == 1 {
            self.kept[usize::from(self.last)] += 1;
        }
        if kind == BACK && answer.refusal == 0 && before.no_history == 1 {
            self.backs[usize::from(answer.tasks == 0)] += 1;
        }
        self.last = answer.refusal;
    }

    fn add_start(&mut self, before: &Answer, record: &[u8], reason: Reason, played: &Played) {
        let Reason { rule, place, .. } = reason;
        let starts = &mut self.starts[usize::from(played.kind) - START];
        starts.add(&Start {
            rule,
            flags: flags(record),
            no_history: before.no_history == 1,
            edition: before.edition,
            main: before.main,
        });
        if before.no_history == 1 && record[1] == before.screen && place <= 1 {
            starts.add_itself(rule, played.answer.tasks == 0);
        }
    }

    /// The two kinds of start by name.
    fn columns(&self) -> [(&'static str, &NoHistory); 2] {
        let [starts, finishing] = &self.starts;
        [
            (KINDS[START - 1], starts),
            (KINDS[FINISHING_START - 1], finishing),
        ]
    }

    /// The names of those that never came up.
    pub fn missing(&self) -> Vec<String> {
        let mut names = Vec::new();
        for (kind, starts) in self.columns() {
            names.extend(starts.missing(kind));
        }
        for refusal in KEPT {
            if self.kept[usize::from(refusal)] == 0 {
                names.push(format!("a No-History front seen after {refusal}"));
            }
        }
        for (times, left) in self.backs.iter().zip(["with", "without"]) {
            if *times == 0 {
                names.push(format!("Back from a No-History front, {left} a task left"));
            }
        }
        names
    }
}

impl fmt::Display for Fronts {
    fn fmt(&self, f: &mut fmt::Formatter) -> fmt::Result {
        no_history::write(f, &self.columns())?;
        let [left, empty] = self.backs;
        writeln!(
            f,
            "Back from it: {left} with a task left, {empty} with none"
        )?;
        write!(f, "seen by a look after refusal:")?;
        for refusal in KEPT {
            write!(f, " {refusal}: {}", self.kept[usize::from(refusal)])?;
        }
        writeln!(f)
    }
}
