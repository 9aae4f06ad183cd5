//! Tallies of answers, and the depth report that a tally gives: how many calls
//! were accepted and refused, and the greatest and the mean front height after
//! those accepted.

use std::cmp::Ordering;

use crate::session::MAX_HEIGHT;
use crate::Refusal;

/// The most calls that a tally takes, accepted and refused together.
pub const MOST_CALLS: u32 = 65_535;

/// What is kept of a list of answers.
#[derive(Clone, Copy, Debug, Default, PartialEq, Eq, Hash)]
pub struct Tally {
    /// The sum of the front heights after accepted calls.
    pub sum: u32,
    pub accepted: u16,
    pub refused: u16,
    /// The greatest of those heights.
    pub greatest: u8,
}

/// The report of a tally.
#[derive(Clone, Copy, Debug, Default, PartialEq, Eq, Hash)]
pub struct Report {
    pub accepted: u16,
    pub refused: u16,
    pub greatest: u8,
    /// The mean front height after accepted calls in tenths.
    pub tenths: u16,
}

impl Tally {
    /// Adds a call by its answer's refusal and front height, at which nobody looks
    /// where the call was refused. Refused itself, it leaves the tally as it was.
    pub fn add(&mut self, refusal: u8, height: u8) -> Result<(), Refusal> {
        let accepted = refusal == 0;
        let too_high = accepted && usize::from(height) > MAX_HEIGHT;
        if too_high || self.calls() >= MOST_CALLS || !self.is_of_a_list() {
            return Err(Refusal::NotTallied);
        }
        if accepted {
            self.accepted += 1;
            self.sum += u32::from(height);
            self.greatest = self.greatest.max(height);
        } else {
            self.refused += 1;
        }
        Ok(())
    }

    /// The report, refused for a tally that no list of answers gives.
    pub fn report(&self) -> Result<Report, Refusal> {
        if !self.is_of_a_list() {
            return Err(Refusal::NotTallied);
        }
        Ok(Report {
            accepted: self.accepted,
            refused: self.refused,
            greatest: self.greatest,
            tenths: tenths(self.sum, self.accepted),
        })
    }

    /// The whole tenths below the mean, where it lies in the middle between these and
    /// one more. The tally is of a list.
    pub fn half_above(&self) -> Option<u32> {
        let (ten, accepted) = (10 * self.sum, u32::from(self.accepted));
        let rest = ten.checked_rem(accepted)?;
        (2 * rest == accepted).then(|| ten / accepted)
    }

    /// How many calls are tallied.
    pub fn calls(&self) -> u32 {
        u32::from(self.accepted) + u32::from(self.refused)
    }

    /// Whether some list of answers gives this tally.
    pub fn is_of_a_list(&self) -> bool {
        let greatest = u32::from(self.greatest);
        let most = u32::from(self.accepted) * greatest;
        self.calls() <= MOST_CALLS
            && usize::from(self.greatest) <= MAX_HEIGHT
            // One call has the greatest height, the others at most that. Where none
            // was accepted there is no such call.
            && (greatest..=most).contains(&self.sum)
    }
}

impl Report {
    /// The four numbers in the order in which they are printed.
    pub fn numbers(self) -> [u16; 4] {
        let greatest = u16::from(self.greatest);
        [self.accepted, self.refused, greatest, self.tenths]
    }
}

/// Ten times the mean of so many heights of this sum, which are at most 32 each:
/// the nearest whole number, of two that are equally near the even one, and 0 where
/// there are no heights.
fn tenths(sum: u32, heights: u16) -> u16 {
    let heights = u32::from(heights);
    if heights == 0 {
        return 0;
    }
    let (below, rest) = (10 * sum / heights, 10 * sum % heights);
    let is_above = match (2 * rest).cmp(&heights) {
        Ordering::Less => false,
        Ordering::Equal => below % 2 == 1,
        Ordering::Greater => true,
    };
    (below + u32::from(is_above)) as u16
}
