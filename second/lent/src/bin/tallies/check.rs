//! Adds a call to a tally and asks for the report of it before that, by both, and
//! compares.

use std::fmt;

use second::tally::{Report, Tally};

use crate::library::Library;
use crate::sorts::Sorts;

/// A tally and the call to be added: its answer's refusal and front height.
#[derive(Clone, Copy, Debug)]
pub struct Asked {
    pub tally: Tally,
    pub refusal: u8,
    pub height: u8,
}

/// What comes of it.
#[derive(Clone, Copy, Debug, PartialEq)]
pub struct Outcome {
    /// The refusal's number, or 0, and the report of the tally as it was.
    report: (u8, Report),
    /// The refusal's number, or 0, of adding the call.
    pub added: u8,
    pub after: Tally,
}

/// What the two differ on.
pub struct Difference {
    what: &'static str,
    asked: Asked,
    library: Outcome,
    /// Whether the library wrote outside of what it may write.
    outside: bool,
    second: Outcome,
}

pub type Checked<T = ()> = Result<T, Box<Difference>>;

pub struct Checker<L> {
    library: L,
    pub sorts: Sorts,
    /// Calls of the library.
    pub calls: u64,
}

impl<L: Library> Checker<L> {
    pub fn new(library: L) -> Checker<L> {
        Checker {
            library,
            sorts: Sorts::new(),
            calls: 0,
        }
    }

    /// Asks both; gives the tally after the call.
    pub fn check(&mut self, what: &'static str, asked: Asked) -> Checked<Tally> {
        let (library, outside) = by_library(&self.library, asked);
        let second = by_second(asked);
        self.sorts.add(asked, second);
        // To add and to report.
        self.calls += 2;
        if library == second && !outside {
            return Ok(second.after);
        }
        Err(Box::new(Difference {
            what,
            asked,
            library,
            outside,
            second,
        }))
    }
}

/// What the library gives, and whether it wrote outside of what it may write.
fn by_library(library: &impl Library, asked: Asked) -> (Outcome, bool) {
    let mut after = asked.tally;
    let (added, outside) = library.add(&mut after, asked.refusal, asked.height);
    let report = library.report(asked.tally);
    let outcome = Outcome {
        report,
        added,
        after,
    };
    (outcome, outside)
}

fn by_second(asked: Asked) -> Outcome {
    let mut after = asked.tally;
    let added = added_by_second(&mut after, asked.refusal, asked.height);
    Outcome {
        report: reported_by_second(asked.tally),
        added,
        after,
    }
}

/// The refusal's number, or 0, of adding a call.
pub fn added_by_second(tally: &mut Tally, refusal: u8, height: u8) -> u8 {
    match tally.add(refusal, height) {
        Ok(()) => 0,
        Err(refusal) => refusal as u8,
    }
}

/// The refusal's number, or 0, and the report.
pub fn reported_by_second(tally: Tally) -> (u8, Report) {
    match tally.report() {
        Ok(report) => (0, report),
        Err(refusal) => (refusal as u8, Report::default()),
    }
}

impl fmt::Display for Difference {
    fn fmt(&self, f: &mut fmt::Formatter) -> fmt::Result {
        writeln!(f, "difference, found in: {}", self.what)?;
        writeln!(f, "{:?}", self.asked)?;
        writeln!(f, "library: {:?}", self.library)?;
        if self.outside {
            writeln!(f, "  and wrote outside")?;
        }
        writeln!(f, "second: {:?}", self.second)
    }
}
