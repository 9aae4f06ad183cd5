//! Why a start goes as it does.

use std::fmt;

use crate::raw;
use crate::{Refusal, UnknownNumber};

/// One line a rule: its number, its name and its sentence.
macro_rules! rules {
    ($($number:literal $name:ident $text:literal)*) => {
        /// The rules of a start, R1 to R18. Each displays what it does, in one
        /// plain sentence.
        #[derive(Clone, Copy, Debug, PartialEq, Eq, Hash)]
        #[repr(u8)]
        pub enum Rule {
            $(#[doc = $text] $name = $number,)*
        }

        impl Rule {
            /// All rules, by number.
            pub const ALL: &'static [Rule] = &[$(Rule::$name),*];

            /// What it does, in one plain sentence.
            #[must_use]
            pub const fn sentence(self) -> &'static str {
                match self {
                    $(Rule::$name => $text,)*
                }
            }
        }
    };
}

rules! {
    1 R1 "the single-instance screen has its task: that task comes to the front"
    2 R2 "the single-instance screen has no task: a new task of it alone comes to the front"
    3 R3 "a task found for the single-task screen is cleared: it comes to the front, all in it closes, and the screen opens in it"
    4 R4 "a task found for it holds the screen: it comes to the front, and what lay above the screen closes"
    5 R5 "a task found for it does not hold the screen: it comes to the front, and the screen opens on top"
    6 R6 "no task is found for the single-task screen: a new task of it alone comes to the front"
    7 R7 "the screen is in front already: the start moves nothing"
    8 R8 "the front task holds the screen, and CLEAR_TOP is set: what lay above the screen closes"
    9 R9 "the front task holds the screen, and REORDER_TO_FRONT is set: it comes to the top; edition 7 empties a main task first"
    10 R10 "the screen opens on top of the front task"
    11 R11 "MULTIPLE_TASK is set: a new task of the screen alone comes to the front"
    12 R12 "a task is found for it, and CLEAR_TASK is set: it comes to the front, all in it closes, and the screen opens in it"
    13 R13 "a task found for it holds the screen, and CLEAR_TOP is set: it comes to the front, and what lay above the screen closes"
    14 R14 "a task found for it does not hold the screen, and CLEAR_TOP is set: it comes to the front, and the screen opens on top"
    15 R15 "a task that began with the screen is found, and is not the main one: it comes to the front as it is"
    16 R16 "a task found for it has the screen on top already: it comes to the front as it is"
    17 R17 "a task is found for it: it comes to the front, and the screen opens on top"
    18 R18 "no task is found for it: a new task of the screen alone comes to the front"
}

impl Rule {
    /// Its number, 1 to 18.
    #[must_use]
    pub const fn number(self) -> u8 {
        self as u8
    }
}

/// The rule of this number, as `explain` prints it.
impl TryFrom<u8> for Rule {
    type Error = UnknownNumber;

    fn try_from(number: u8) -> Result<Rule, UnknownNumber> {
        let known = Rule::ALL.iter().find(|r| r.number() == number);
        known.copied().ok_or(UnknownNumber { number, of: "rule" })
    }
}

impl fmt::Display for Rule {
    fn fmt(&self, f: &mut fmt::Formatter) -> fmt::Result {
        f.write_str(self.sentence())
    }
}

/// How a task is found for a start, by its number.
#[derive(Clone, Copy, Debug, PartialEq, Eq, Hash)]
#[repr(u8)]
pub enum FoundBy {
    /// The screen is its root.
    Root = 1,
    /// Its root has the screen's affinity.
    Affinity = 2,
}

/// `root` or `affinity`
impl fmt::Display for FoundBy {
    fn fmt(&self, f: &mut fmt::Formatter) -> fmt::Result {
        f.pad(match self {
            FoundBy::Root => "root",
            FoundBy::Affinity => "affinity",
        })
    }
}

/// The task that is found for a start.
#[derive(Clone, Copy, Debug, PartialEq, Eq, Hash)]
pub struct Found {
    /// Its place (from 1) before the start.
    pub place: u8,
    /// How it is found.
    pub by: FoundBy,
}

/// Why a start goes as it does.
#[derive(Clone, Copy, Debug, PartialEq, Eq, Hash)]
pub struct Reason {
    /// The rule that it uses.
    pub rule: Rule,
    /// The task that is found for it, if one is sought and found.
    pub found: Option<Found>,
}

impl Reason {
    pub(crate) fn told(reason: raw::Reason) -> Result<Reason, Refusal> {
        Refusal::check(reason.refusal)?;
        let place = reason.place;
        Ok(Reason {
            rule: Rule::try_from(reason.rule).expect("the library gives no other number"),
            found: match reason.found {
                0 => None,
                1 => Some(FoundBy::Root),
                _ => Some(FoundBy::Affinity),
            }
            .map(|by| Found { place, by }),
        })
    }
}

/// The rule, the task that is found, and the rule's sentence:
/// `R17, found at place 2 by affinity: a task is found for it: ..`
impl fmt::Display for Reason {
    fn fmt(&self, f: &mut fmt::Formatter) -> fmt::Result {
        write!(f, "R{}", self.rule.number())?;
        if let Some(Found { place, by }) = self.found {
            write!(f, ", found at place {place} by {by}")?;
        }
        write!(f, ": {}", self.rule)
    }
}
