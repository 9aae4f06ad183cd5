//! How many screens calls closed, counted for comparisons by rule, so that it is
//! known which of the numbers that a rule can close came up.

use std::fmt;
use std::ops::RangeInclusive;

use crate::session::MAX_HEIGHT;

/// The most that a call closes: R3 or R12 empties another task of 32 screens, and
/// the caller closes.
const MOST: usize = MAX_HEIGHT + 1;

const RULES: usize = 18;

/// How often calls of one kind closed each number of screens, by rule; calls that
/// have no rule are at index 0.
pub struct Closings([[u64; MOST + 1]; RULES + 1]);

impl Default for Closings {
    fn default() -> Closings {
        Closings([[0; MOST + 1]; RULES + 1])
    }
}

/// Whether a call can close so many by a rule, which stands before the number.
pub type Possible = fn(usize, usize) -> bool;

/// Whether a start from a front that is no No-History one can close so many. It
/// clears to B from a height of 32 at most; in R8 and R9 the caller is above B, so
/// that a task that R9 empties has two screens or more.
pub fn by_start(rule: usize, closed: usize) -> bool {
    match rule {
        3 | 12 => matches!(closed, 1..=32),
        4 | 13 => matches!(closed, 0..=31),
        8 => matches!(closed, 1..=31),
        9 => matches!(closed, 0 | 2..=32),
        _ => closed == 0,
    }
}

/// Whether a finishing start can close so many: one more, unless the caller is
/// among those removed.
pub fn by_finishing_start(rule: usize, closed: usize) -> bool {
    match rule {
        3 | 12 => matches!(closed, 1..=33),
        4 | 9 | 13 => matches!(closed, 1..=32),
        8 => matches!(closed, 1..=31),
        _ => closed == 1,
    }
}

/// Whether a start from a No-History front can close so many: as a finishing start,
/// save by R7.
pub fn by_no_history_start(rule: usize, closed: usize) -> bool {
    match rule {
        7 => closed == 0,
        _ => by_finishing_start(rule, closed),
    }
}

impl Closings {
    pub fn add(&mut self, rule: u8, closed: u8) {
        self.0[usize::from(rule)][usize::from(closed)] += 1;
    }

    /// How often one of these numbers was closed.
    fn closed(&self, numbers: &RangeInclusive<usize>) -> u64 {
        let by_rule = self.0.iter().flat_map(|rule| &rule[numbers.clone()]);
        by_rule.sum()
    }

    /// The names of what is possible by the rules and never came up in calls of
    /// this name.
    pub fn missing(&self, name: &str, possible: Possible) -> Vec<String> {
        let mut names = Vec::new();
        for rule in 1..=RULES {
            for closed in 0..=MOST {
                if possible(rule, closed) && self.0[rule][closed] == 0 {
                    names.push(format!("R{rule} with {closed} closed by {name}"));
                }
            }
        }
        names
    }
}

/// Numbers that are written as one.
const GROUPS: [(&str, RangeInclusive<usize>); 5] = [
    ("0", 0..=0),
    ("1", 1..=1),
    ("2 to 31", 2..=31),
    ("32", 32..=32),
    ("33", 33..=33),
];

/// Writes how often how many screens were closed, with a column for each kind of
/// call.
pub fn write(f: &mut fmt::Formatter, columns: &[(&str, &Closings)]) -> fmt::Result {
    write!(f, "closed ")?;
    for (name, _) in columns {
        write!(f, " {name:>15}")?;
    }
    writeln!(f)?;
    for (group, numbers) in GROUPS {
        write!(f, "{group:<7}")?;
        for (_, closings) in columns {
            write!(f, " {:>15}", closings.closed(&numbers))?;
        }
        writeln!(f)?;
    }
    Ok(())
}
