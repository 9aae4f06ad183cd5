//! How deep a list of calls went.

use std::fmt;

use crate::raw;
use crate::{Answer, Refusal};

/// A tally of answers. It is four numbers, which a program may keep and take up
/// again; the library refuses those that no list of answers gives.
///
/// ```
/// use milchkompass::{Edition, Flags, LaunchMode, Refusal, Screen, Session, Table, Tally};
///
/// # fn main() -> Result<(), Refusal> {
/// let table = Table::new(0, &[Screen::new(LaunchMode::Standard, 1)])?;
/// let mut session = Session::new(table);
/// let mut tally = Tally::new();
/// tally.add_result(session.launch(Edition::Android8))?;
/// tally.add_result(session.start(0, Flags::NONE))?;
/// tally.add_result(session.start(1, Flags::NONE))?;
/// // Two are accepted, with the heights 1 and 2, and one is refused.
/// assert_eq!(tally.report()?.to_string(), "2 1 2 15");
/// # Ok(())
/// # }
/// ```
#[derive(Clone, Copy, Debug, Default, PartialEq, Eq, Hash)]
pub struct Tally {
    /// The sum of the front heights of the accepted answers.
    pub sum: u32,
    /// How many answers were accepted.
    pub accepted: u16,
    /// How many were refused.
    pub refused: u16,
    /// The greatest front height of the accepted ones, 0 if there is none.
    pub greatest: u8,
}

/// What is told of a tally. It displays the four numbers as `depth` prints
/// them: accepted, refused, greatest, tenths.
#[derive(Clone, Copy, Debug, Default, PartialEq, Eq, Hash)]
pub struct Report {
    /// How many answers were accepted.
    pub accepted: u16,
    /// How many were refused.
    pub refused: u16,
    /// The greatest front height of the accepted ones, 0 if there is none.
    pub greatest: u8,
    /// The mean of those heights in tenths, rounded to the nearest and a half to
    /// the even neighbour, 0 if there is none.
    pub tenths: u16,
}

impl Tally {
    /// The tally of no answer.
    #[must_use]
    pub const fn new() -> Tally {
        Tally {
            sum: 0,
            accepted: 0,
            refused: 0,
            greatest: 0,
        }
    }

    /// Adds an answer by its refusal, 0 if it is accepted, and its front height,
    /// as a line of the player has them. The height of a refused answer is not
    /// looked at.
    ///
    /// # Errors
    ///
    /// [`NotTallied`](Refusal::NotTallied), and the tally keeps its numbers: if
    /// it has 65,535 answers already, if an accepted height is above 32, or if
    /// no list of answers gives the tally.
    ///
    /// # Panics
    ///
    /// If the library that is linked has another interface than this crate.
    pub fn add(&mut self, refusal: u8, height: u8) -> Result<(), Refusal> {
        let mut stored = self.stored();
        let given = raw::tally_add(&mut stored, refusal, height);
        *self = Tally {
            sum: stored.sum,
            accepted: stored.accepted,
            refused: stored.refused,
            greatest: stored.greatest,
        };
        Refusal::check(given)
    }

    /// Adds what a call on a session returned.
    ///
    /// # Errors
    ///
    /// As [`add`](Tally::add). A result that is an error is added as a refused
    /// answer, and is not returned.
    ///
    /// # Panics
    ///
    /// As [`add`](Tally::add).
    pub fn add_result(&mut self, result: Result<Answer, Refusal>) -> Result<(), Refusal> {
        match result {
            Ok(answer) => self.add(0, answer.height),
            Err(refusal) => self.add(refusal.number(), 0),
        }
    }

    /// The report of the tally.
    ///
    /// # Errors
    ///
    /// [`NotTallied`](Refusal::NotTallied) if no list of answers gives the tally.
    ///
    /// # Panics
    ///
    /// As [`add`](Tally::add).
    pub fn report(&self) -> Result<Report, Refusal> {
        let report = raw::tally_report(self.stored());
        Refusal::check(report.refusal)?;
        Ok(Report {
            accepted: report.accepted,
            refused: report.refused,
            greatest: report.greatest,
            tenths: report.tenths,
        })
    }

    fn stored(&self) -> raw::Tally {
        raw::Tally {
            sum: self.sum,
            accepted: self.accepted,
            refused: self.refused,
            greatest: self.greatest,
        }
    }
}

/// `7 1 3 14`
impl fmt::Display for Report {
    fn fmt(&self, f: &mut fmt::Formatter) -> fmt::Result {
        let (accepted, refused) = (self.accepted, self.refused);
        write!(f, "{accepted} {refused} {} {}", self.greatest, self.tenths)
    }
}
