//! How often each rule came up in each edition, and what found its task, for
//! comparisons.

use std::fmt;

use crate::edition::{EDITIONS, SEVEN, SIX};
use crate::Reason;

const RULES: usize = 18;
const REORDER: usize = 9;

/// What a task is found by, in the order of a reason's numbers.
pub const FOUND: [&str; 3] = ["none", "root", "affinity"];

/// What the task of a rule can be found by in an edition: these numbers. Where
/// there are none the rule cannot occur.
fn possible_found(edition: u8, rule: usize) -> &'static [usize] {
    match (edition, rule) {
        (SIX, 15) => &[],
        (SIX, 12..=14 | 16 | 17) => &[2],
        (_, 1 | 15) => &[1],
        // In edition 6 by root too, where a single-task screen has affinity 0.
        (_, 3..=5 | 12..=14 | 16 | 17) => &[1, 2],
        _ => &[0],
    }
}

/// Accepted starts, or reasons, by edition, rule and what found the task.
#[derive(Default)]
pub struct ByEdition {
    /// By edition less 6.
    starts: [[[u64; 3]; RULES + 1]; 3],
    /// Those of R9 in edition 7 that empty the main task, and that lift in another.
    emptied: u64,
    lifted: u64,
}

impl ByEdition {
    /// Counts an accepted start of this reason in a session of this edition, whose
    /// main place was this.
    pub fn add(&mut self, edition: u8, main: usize, reason: Reason) {
        let (rule, found) = (usize::from(reason.rule), usize::from(reason.found));
        assert!(
            possible_found(edition, rule).contains(&found),
            "R{rule} in edition {edition}, found by {}",
            FOUND[found]
        );
        self.starts[usize::from(edition - SIX)][rule][found] += 1;
        if (edition, rule) == (SEVEN, REORDER) {
            self.emptied += u64::from(main == 1);
            self.lifted += u64::from(main != 1);
        }
    }

    /// How often a rule came up in an edition, by what found the task.
    fn found_in(&self, edition: u8, rule: usize) -> [u64; 3] {
        self.starts[usize::from(edition - SIX)][rule]
    }

    /// How often a rule came up in all editions, by what found the task.
    pub fn found(&self, rule: usize) -> [u64; 3] {
        let found = |by: usize| {
            EDITIONS
                .iter()
                .map(|&edition| self.found_in(edition, rule)[by])
                .sum()
        };
        [found(0), found(1), found(2)]
    }

    /// How often a rule came up.
    pub fn times(&self, rule: usize) -> u64 {
        self.found(rule).iter().sum()
    }

    /// The names of what can occur in an edition and never came up in calls of
    /// this name.
    pub fn missing(&self, name: &str) -> Vec<String> {
        let mut names = Vec::new();
        for edition in EDITIONS {
            for rule in 1..=RULES {
                for &by in possible_found(edition, rule) {
                    if self.found_in(edition, rule)[by] == 0 {
                        let found = FOUND[by];
                        names.push(format!(
                            "R{rule} in edition {edition}, found by {found}, by {name}"
                        ));
                    }
                }
            }
        }
        for (what, times) in [
            ("emptying the main task", self.emptied),
            ("lifting in another task", self.lifted),
        ] {
            if times == 0 {
                names.push(format!("R{REORDER} {what} in edition {SEVEN} by {name}"));
            }
        }
        names
    }
}

/// Writes how often each rule came up, with columns for each kind of call.
pub fn write(f: &mut fmt::Formatter, columns: &[(&str, &ByEdition)]) -> fmt::Result {
    write!(f, "rule   ")?;
    for (name, _) in columns {
        write!(f, " {:>31}", format!("{name} in {SIX}"))?;
        for edition in &EDITIONS[1..] {
            write!(f, " {edition:>11}")?;
        }
    }
    writeln!(f)?;
    for rule in 1..=RULES {
        write!(f, "{:<7}", format!("R{rule}"))?;
        for (_, counts) in columns {
            for (edition, width) in EDITIONS.into_iter().zip([31, 11, 11]) {
                let times: u64 = counts.found_in(edition, rule).iter().sum();
                write!(f, " {times:>width$}")?;
            }
        }
        writeln!(f)?;
    }
    for (
        name,
        ByEdition {
            emptied, lifted, ..
        },
    ) in columns
    {
        writeln!(
            f,
            "R{REORDER} in edition {SEVEN}, {name}: {emptied} emptied the main task, {lifted} lifted in another"
        )?;
    }
    Ok(())
}

/// The bytes that name an edition in a launch.
const BYTES: [u8; 4] = [0, 6, 7, 8];

/// Accepted launches by their edition byte.
#[derive(Default)]
pub struct Launches([u64; BYTES.len()]);

impl Launches {
    /// Counts an accepted launch with this byte.
    pub fn add(&mut self, byte: u8) {
        let place = BYTES.iter().position(|&known| known == byte);
        let place = place.expect("no other byte is accepted");
        self.0[place] += 1;
    }

    /// The names of those that never came up.
    pub fn missing(&self) -> Vec<String> {
        let times = BYTES.into_iter().zip(self.0);
        times
            .filter(|&(_, times)| times == 0)
            .map(|(byte, _)| format!("a launch with edition byte {byte}"))
            .collect()
    }
}

impl fmt::Display for Launches {
    fn fmt(&self, f: &mut fmt::Formatter) -> fmt::Result {
        write!(f, "launches by edition byte:")?;
        for (byte, times) in BYTES.into_iter().zip(self.0) {
            write!(f, " {byte}: {times}")?;
        }
        writeln!(f)
    }
}
