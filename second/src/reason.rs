//! The reason under a start: which rule moves what.

use crate::rules::Choice;
use crate::Refusal;

/// The reason of a start, plain or finishing: four numbers.
#[derive(Clone, Copy, Debug, Default, PartialEq, Eq, Hash)]
pub struct Reason {
    pub refusal: u8,
    /// 1 to 18 for R1 to R18.
    pub rule: u8,
    /// The place, from 1, of the task found; 0 if none.
    pub place: u8,
    /// What found it: 0 none, 1 root, 2 affinity.
    pub found: u8,
}

impl Reason {
    /// The reason of a start that is not refused.
    pub fn chosen(choice: Choice) -> Reason {
        let (place, found) = match choice.found {
            None => (0, 0),
            Some(found) => (found.place, found.by as u8),
        };
        Reason {
            refusal: 0,
            rule: choice.rule as u8,
            place,
            found,
        }
    }

    /// The reason of a refused start.
    pub fn refused(refusal: Refusal) -> Reason {
        Reason {
            refusal: refusal as u8,
            ..Reason::default()
        }
    }

    /// The four numbers in this order.
    pub fn numbers(self) -> [u8; 4] {
        [self.refusal, self.rule, self.place, self.found]
    }
}
