//! Makes an example of a difference smaller: first what comes after the first
//! differing line is dropped, then large groups of records become looks, then
//! records are dropped in ever smaller groups, then what is left becomes looks and
//! loses flag bits, each time only if a difference stays.

use std::fmt;
use std::time::{Duration, Instant};

use second::hex::hex;
use second::play::RECORD;

use crate::check::{Checker, Difference, Input, Manner, Written};
use crate::make::record;

/// How many times the outside program may be run in search of a smaller one, and
/// for how long.
const RUNS: u32 = 4000;
const LONGEST: Duration = Duration::from_secs(30);
/// In about how many groups at most records become looks.
const GROUPS: usize = 64;

struct Search<'a, M: Manner> {
    checker: &'a mut Checker<M>,
    best: Difference,
    runs: u32,
    begun: Instant,
}

impl<M: Manner> Search<'_, M> {
    fn records(&self) -> &[u8] {
        &self.best.input.records
    }

    fn is_over(&self) -> bool {
        self.runs >= RUNS || self.begun.elapsed() >= LONGEST
    }

    /// Takes these records instead if the difference stays.
    fn attempt(&mut self, records: Vec<u8>) -> bool {
        if self.is_over() {
            return false;
        }
        self.runs += 1;
        let Input { what, table, .. } = self.best.input.clone();
        let input = Input {
            what,
            table,
            records,
        };
        let written = self.checker.play(&input);
        let differs = written.differ();
        if differs {
            self.best = Difference { input, written };
        }
        differs
    }

    /// Drops the records after the one whose line differs first.
    fn cut(&mut self) {
        let Written { outside, here, .. } = &self.best.written;
        let Ok(outside) = outside else { return };
        let Some(number) = M::records_to(here, first_line(outside, here)) else {
            return;
        };
        if number * RECORD < self.records().len() {
            let kept = self.records()[..number * RECORD].to_vec();
            self.attempt(kept);
        }
    }

    /// Puts others in the place of groups of records, from the last to the first,
    /// halving the size of the groups down to the least.
    fn change_groups(&mut self, least: usize, change: fn(&[u8]) -> Vec<u8>) {
        let mut size = self.records().len() / RECORD / 2;
        while size >= least.max(1) && !self.is_over() {
            let mut end = self.records().len();
            while end > 0 {
                let begin = end.saturating_sub(size * RECORD);
                let (before, rest) = self.records().split_at(begin);
                let (group, after) = rest.split_at(end - begin);
                let changed = change(group);
                // To drop either of two equal groups side by side is the same.
                let tried = changed.is_empty() && after.starts_with(group);
                if changed != group && !tried && self.attempt([before, &changed, after].concat()) {
                    self.cut();
                }
                end = begin.min(self.records().len());
            }
            size /= 2;
        }
    }

    fn drop_groups(&mut self) {
        self.change_groups(1, |_| Vec::new());
    }

    /// Makes looks of records, which do no more than to be there.
    fn make_looks(&mut self) {
        let least = self.records().len() / RECORD / GROUPS;
        self.change_groups(least, |group| {
            record(5, 0, 0).repeat(group.len().div_ceil(RECORD))
        });
    }

    /// Clears single bits of whole records' screens and flag words.
    fn clear_bits(&mut self) {
        for at in 0..self.records().len() {
            for bit in 0..8 {
                let set = self
                    .records()
                    .get(at)
                    .is_some_and(|byte| byte & 1 << bit != 0);
                if at % RECORD != 0 && set && !self.is_over() {
                    let mut records = self.records().to_vec();
                    records[at] &= !(1 << bit);
                    self.attempt(records);
                }
            }
        }
    }
}

/// The smallest example that is found.
pub fn shrink<M: Manner>(checker: &mut Checker<M>, difference: Difference) -> Difference {
    let mut search = Search {
        checker,
        best: difference,
        runs: 0,
        begun: Instant::now(),
    };
    search.cut();
    search.make_looks();
    loop {
        let before = search.records().len();
        search.drop_groups();
        if search.records().len() == before || search.is_over() {
            break;
        }
    }
    search.make_looks();
    search.clear_bits();
    search.best
}

/// The number, from 0, of the first line that differs.
fn first_line(outside: &[u8], here: &[u8]) -> usize {
    let alike = outside.iter().zip(here).take_while(|(a, b)| a == b);
    alike.filter(|(&byte, _)| byte == b'\n').count()
}

impl fmt::Display for Difference {
    fn fmt(&self, f: &mut fmt::Formatter) -> fmt::Result {
        writeln!(f, "difference, found in: {}", self.input.what)?;
        writeln!(f, "table, hex: {}", hex(&self.input.table, 1))?;
        writeln!(f, "records, hex:{}", stretches(&self.input.records))?;
        let here = &self.written.here;
        let text = String::from_utf8_lossy(here);
        match &self.written.outside {
            Err(message) => {
                writeln!(f, "outside: {message}")?;
                writeln!(f, "here: {}", text.lines().last().unwrap_or("(no line)"))
            }
            Ok(outside) => {
                let line = first_line(outside, here);
                let outside = String::from_utf8_lossy(outside);
                writeln!(f, "line {}:", line + 1)?;
                writeln!(f, "  outside: {}", nth_line(&outside, line))?;
                writeln!(f, "  here:    {}", nth_line(&text, line))
            }
        }
    }
}

/// Records in hex, a space before each; of many that are equal, one and how many.
fn stretches(records: &[u8]) -> String {
    let records: Vec<&[u8]> = records.chunks(RECORD).collect();
    let mut text = String::new();
    for stretch in records.chunk_by(|one, next| one == next) {
        let one = format!(" {}", hex(stretch[0], RECORD));
        match stretch.len() {
            many @ 10.. => text += &format!("{one} ({many} times)"),
            few => text += &one.repeat(few),
        }
    }
    text
}

/// A line, from 0, with its end shown.
fn nth_line(text: &str, number: usize) -> impl fmt::Display + '_ {
    let line = text.split_inclusive('\n').nth(number);
    line.unwrap_or("(no line)").escape_debug()
}
