//! Cases that are to come up in a comparison, by name, and how often each did.

use std::fmt;

/// A case: its name, and whether something has it.
pub type Case<T> = (&'static str, fn(&T) -> bool);

pub struct Cases<T: 'static> {
    cases: &'static [Case<T>],
    counts: Vec<u64>,
    /// How often each is to come up.
    least: u64,
}

impl<T> Cases<T> {
    /// Cases that are to come up once.
    pub fn new(cases: &'static [Case<T>]) -> Cases<T> {
        Cases::at_least(1, cases)
    }

    /// Cases that are each to come up so many times.
    pub fn at_least(least: u64, cases: &'static [Case<T>]) -> Cases<T> {
        let counts = vec![0; cases.len()];
        Cases {
            cases,
            counts,
            least,
        }
    }

    pub fn add(&mut self, seen: &T) {
        for ((_, has), count) in self.cases.iter().zip(&mut self.counts) {
            *count += u64::from(has(seen));
        }
    }

    fn named(&self) -> impl Iterator<Item = (&'static str, u64)> + '_ {
        let names = self.cases.iter().map(|&(name, _)| name);
        names.zip(self.counts.iter().copied())
    }

    /// The names of those that never came up, or not often enough.
    pub fn missing(&self) -> Vec<String> {
        let rare = self.named().filter(|&(_, count)| count < self.least);
        rare.map(|(name, count)| match count {
            0 => name.to_string(),
            _ => format!("{name}, {count} of {} times", self.least),
        })
        .collect()
    }
}

impl<T> fmt::Display for Cases<T> {
    fn fmt(&self, f: &mut fmt::Formatter) -> fmt::Result {
        for (name, count) in self.named() {
            writeln!(f, "{name:<35} {count:>9}")?;
        }
        Ok(())
    }
}
