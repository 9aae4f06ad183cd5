//! How often each rule came up with the No-History flag and from a No-History
//! front, and how often such a front closed by its own start, for comparisons.

use std::fmt;

use crate::edition::SEVEN;
use crate::table::NO_HISTORY;

const RULES: usize = 18;
const REORDER: usize = 9;
/// R9 where it empties the main task, apart from the lift.
const EMPTYING: usize = RULES + 1;

/// The rules by which a start of a No-History front itself closes it, and those by
/// which a finishing start does.
pub const BY_START: &[usize] = &[1, 4, 13, 15, 16];
pub const BY_FINISHING_START: &[usize] = &[1, 4, 7, 13, 15, 16];

/// A start that was accepted, or the reason of one.
pub struct Start {
    pub rule: u8,
    pub flags: u32,
    /// Of the session before it.
    pub no_history: bool,
    pub edition: u8,
    pub main: u8,
}

impl Start {
    fn rule(&self) -> usize {
        let emptying = self.edition == SEVEN && self.main == 1;
        match usize::from(self.rule) {
            REORDER if emptying => EMPTYING,
            rule => rule,
        }
    }
}

/// Starts of one kind, or reasons.
pub struct NoHistory {
    /// By rule, by whether they had the flag, by whether the front was a No-History
    /// one.
    starts: [[[u64; 2]; 2]; EMPTYING + 1],
    /// The rules by which one of a No-History front itself closes it.
    closing: &'static [usize],
    /// Those, by rule and by whether the session is left empty.
    itself: [[u64; 2]; RULES + 1],
}

impl NoHistory {
    pub fn new(closing: &'static [usize]) -> NoHistory {
        NoHistory {
            starts: [[[0; 2]; 2]; EMPTYING + 1],
            closing,
            itself: [[0; 2]; RULES + 1],
        }
    }

    pub fn add(&mut self, start: &Start) {
        let flag = usize::from(start.flags & NO_HISTORY != 0);
        let front = usize::from(start.no_history);
        self.starts[start.rule()][flag][front] += 1;
    }

    /// Counts a start by this rule of a No-History front itself, for which its own
    /// task was found or none.
    pub fn add_itself(&mut self, rule: u8, left_empty: bool) {
        self.itself[usize::from(rule)][usize::from(left_empty)] += 1;
    }

    /// How often such a start closed it, and whether the session was left empty.
    fn closed_itself(&self, left_empty: bool) -> u64 {
        let times = |&rule: &usize| self.itself[rule][usize::from(left_empty)];
        self.closing.iter().map(times).sum()
    }

    /// The names of what never came up in calls of this name.
    pub fn missing(&self, name: &str) -> Vec<String> {
        let mut names = Vec::new();
        for (rule, starts) in self.starts.iter().enumerate().skip(1) {
            for (starts, flag) in starts.iter().zip(["without", "with"]) {
                for (&times, front) in starts.iter().zip(["another", "a No-History"]) {
                    if times == 0 {
                        let rule = rule_name(rule);
                        names.push(format!(
                            "{rule} {flag} the No-History flag from {front} front by {name}"
                        ));
                    }
                }
            }
        }
        for &rule in self.closing {
            for (times, left) in self.itself[rule].iter().zip(["with", "without"]) {
                if *times == 0 {
                    names.push(format!(
                        "R{rule} of a No-History front itself, {left} a task left, by {name}"
                    ));
                }
            }
        }
        names
    }
}

fn rule_name(rule: usize) -> String {
    match rule {
        EMPTYING => format!("R{REORDER} of {SEVEN}"),
        rule => format!("R{rule}"),
    }
}

/// Writes how often each rule came up, with columns for each kind of call: neither
/// flag nor front, the front, the flag, both; and how often a No-History front closed
/// by its own start, and left the session empty.
pub fn write(f: &mut fmt::Formatter, columns: &[(&str, &NoHistory)]) -> fmt::Result {
    write!(f, "No-History")?;
    for (name, _) in columns {
        let name = format!("{name}: neither");
        write!(f, " {name:>24} {:>9} {:>9} {:>9}", "front", "flag", "both")?;
    }
    writeln!(f)?;
    for rule in 1..=EMPTYING {
        write!(f, "{:<10}", rule_name(rule))?;
        for (_, counts) in columns {
            let [[neither, front], [flag, both]] = counts.starts[rule];
            write!(f, " {neither:>24} {front:>9} {flag:>9} {both:>9}")?;
        }
        writeln!(f)?;
    }
    for (name, counts) in columns
        .iter()
        .filter(|(_, counts)| !counts.closing.is_empty())
    {
        let [left, empty] = [false, true].map(|empty| counts.closed_itself(empty));
        writeln!(
            f,
            "closed by its own {name}: {left} with a task left, {empty} with none"
        )?;
    }
    Ok(())
}
