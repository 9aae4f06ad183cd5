//! How often each rule came up in each edition, with the No-History flag and from
//! such a front, and each refusal, how tasks were found, those of screens of affinity
//! 0 too, and how many screens were closed.

use std::fmt;

use second::by_edition::{self, ByEdition, Launches};
use second::closings::{self, Closings};
use second::no_affinity::NoAffinity;
use second::play::{Played, Player};
use second::Answer;

use crate::fronts::Fronts;

/// The calls by their kinds, from 1.
pub const KINDS: [&str; 5] = ["launch", "start", "finishing start", "Back", "look"];
const LAUNCH: u8 = 1;
pub const START: usize = 2;
pub const FINISHING_START: usize = 3;

/// The refusals that a player can give.
const REFUSALS: [u8; 10] = [1, 2, 3, 4, 9, 21, 22, 23, 24, 30];

/// The rules under which a start can be refused for want of space.
const FULL: [(u8, u8); 8] = [
    (23, 2),
    (23, 6),
    (23, 11),
    (23, 18),
    (24, 5),
    (24, 10),
    (24, 14),
    (24, 17),
];

/// Front screens that are no No-History ones, and those that are.
const FRONTS: [&str; 2] = ["another", "a No-History"];

#[derive(Default)]
pub struct Counts {
    /// Accepted calls by kind less 1, by rule and by what they closed; starts from a
    /// No-History front are apart.
    closings: [Closings; 5],
    no_history_starts: Closings,
    fronts: Fronts,
    /// Accepted launches.
    launches: Launches,
    /// Accepted starts and finishing starts by edition.
    starts: [ByEdition; 2],
    /// Those of both kinds of screens of affinity 0.
    no_affinity: NoAffinity,
    /// Lines by refusal.
    refusals: [u64; 31],
    /// Refusals 23 and 24 by the rule that needed the space, and by whether the front
    /// was a No-History one.
    full: [[u64; 2]; 19],
}

impl Counts {
    /// Counts one record, after it was played, by the answer of a look before that.
    pub fn add(&mut self, before: &Answer, player: &Player, record: &[u8], played: &Played) {
        let refusal = played.answer.refusal;
        self.refusals[usize::from(refusal)] += 1;
        self.fronts.add(before, record, played);
        if refusal == 0 {
            self.add_accepted(before, player, played);
            self.add_no_affinity(player, record, played);
            if played.kind == LAUNCH {
                self.launches.add(record[1]);
            }
        }
        if refusal == 23 || refusal == 24 {
            // The session is as it was, so the rule can still be asked for.
            if let Ok(table) = &player.table {
                let choice = player.session.decide(table, record[1], flags(record));
                self.full[choice.rule as usize][usize::from(before.no_history)] += 1;
            }
        }
    }

    fn add_accepted(&mut self, before: &Answer, player: &Player, played: &Played) {
        let rule = played.reason.map_or(0, |reason| reason.rule);
        let closings = match usize::from(played.kind) {
            START if before.no_history == 1 => &mut self.no_history_starts,
            kind => &mut self.closings[kind - 1],
        };
        closings.add(rule, played.answer.closed);
        if let Some(reason) = played.reason {
            // R9, for which it counts, leaves the main place.
            let main = player.session.main;
            self.starts[usize::from(played.kind) - START].add(before.edition, main, reason);
        }
    }

    /// Counts the start of a screen of affinity 0.
    fn add_no_affinity(&mut self, player: &Player, record: &[u8], played: &Played) {
        if let (Some(reason), Ok(table)) = (played.reason, &player.table) {
            // Where the front task is new, those behind it stood before.
            let behind = player.session.tasks.get(1..).unwrap_or(&[]);
            self.no_affinity.add(table, record[1], reason, behind);
        }
    }

    /// The two kinds of start by name.
    fn columns(&self) -> [(&'static str, &ByEdition); 2] {
        let [starts, finishing] = &self.starts;
        [
            (KINDS[START - 1], starts),
            (KINDS[FINISHING_START - 1], finishing),
        ]
    }

    /// The accepted calls of this kind.
    fn of_kind(&self, kind: usize) -> &Closings {
        &self.closings[kind - 1]
    }

    /// Counts the line of an input whose table could not be read.
    pub fn add_bad_table(&mut self) {
        self.refusals[1] += 1;
    }

    /// The names of those that never came up.
    pub fn missing(&self) -> Vec<String> {
        let (starts, finishing) = (self.of_kind(START), self.of_kind(FINISHING_START));
        let mut names = starts.missing("a start", closings::by_start);
        names.extend(finishing.missing("a finishing start", closings::by_finishing_start));
        names.extend(self.no_history_starts.missing(
            "a start from a No-History front",
            closings::by_no_history_start,
        ));
        names.extend(self.fronts.missing());
        for (kind, starts) in self.columns() {
            names.extend(starts.missing(kind));
        }
        names.extend(self.launches.missing());
        names.extend(self.no_affinity.missing());
        for refusal in REFUSALS {
            if self.refusals[usize::from(refusal)] == 0 {
                names.push(format!("refusal {refusal}"));
            }
        }
        for (refusal, rule) in FULL {
            for (times, front) in self.full[usize::from(rule)].iter().zip(FRONTS) {
                if *times == 0 {
                    names.push(format!(
                        "refusal {refusal} under R{rule} from {front} front"
                    ));
                }
            }
        }
        names
    }
}

/// The flag word of a whole record.
pub fn flags(record: &[u8]) -> u32 {
    u32::from_be_bytes([record[2], record[3], record[4], record[5]])
}

impl fmt::Display for Counts {
    fn fmt(&self, f: &mut fmt::Formatter) -> fmt::Result {
        by_edition::write(f, &self.columns())?;
        write!(f, "{}", self.launches)?;
        let mut columns: Vec<_> = KINDS.into_iter().zip(&self.closings).collect();
        columns.push(("from No-History", &self.no_history_starts));
        closings::write(f, &columns)?;
        write!(f, "{}", self.fronts)?;
        write!(f, "{}", self.no_affinity)?;
        writeln!(f, "refusal       lines")?;
        for refusal in REFUSALS {
            writeln!(
                f,
                "{refusal:<4} {:>14}",
                self.refusals[usize::from(refusal)]
            )?;
        }
        for (refusal, rule) in FULL {
            let [other, no_history] = self.full[usize::from(rule)];
            writeln!(
                f,
                "{refusal} under R{rule:<2} {other:>6}, from No-History {no_history}"
            )?;
        }
        Ok(())
    }
}
