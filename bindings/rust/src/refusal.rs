//! Why a call is refused.

use std::error::Error;
use std::fmt;

use crate::UnknownNumber;

/// One line a refusal: its number, its name and its condition.
macro_rules! refusals {
    ($($number:literal $name:ident $text:literal)*) => {
        /// Why a call is refused. A refused call changes nothing.
        #[derive(Clone, Copy, Debug, PartialEq, Eq, Hash)]
        #[non_exhaustive]
        #[repr(u8)]
        pub enum Refusal {
            $(#[doc = $text] $name = $number,)*
        }

        impl Refusal {
            /// All refusals, by number.
            pub const ALL: &'static [Refusal] = &[$(Refusal::$name),*];

            /// What the rules say of it.
            #[must_use]
            pub const fn condition(self) -> &'static str {
                match self {
                    $(Refusal::$name => $text,)*
                }
            }
        }
    };
}

refusals! {
    1 TableLength "the table's length does not fit its number of screens, or that is not 1 to 64"
    2 TableContent "the table's main screen is not one of its screens, or a launch mode is not 0 to 3"
    3 NoSuchScreen "a start names a screen that the table does not have"
    4 OtherFlag "a start's flag word has a bit that is none of the seven flags"
    5 ImageTrailer "what is restored is no image: too short, an end that is not an edition (6, 7 or 8) and hex 42, or a wrong length"
    6 ImageTasks "the image has more than 16 tasks, or a task without a screen or with more than 32, or bytes too few or too many"
    7 ImageUnsound "the image holds a session that cannot be under this table, or an empty one of edition 6 or 7 or with the mark"
    8 BufferShort "the buffer for an image is too short"
    9 BadRecord "the record is of an unknown kind, or the recording ends within it"
    20 SessionUnsound "the session cannot be under this table, its edition is none of 6, 7 and 8, its mark is above 1, or it is empty and has another edition than 8 or the mark"
    21 Empty "a start or Back, and no task is there"
    22 NotEmpty "a launch, and a task is there"
    23 TasksFull "a new task is needed, and 16 stand"
    24 TaskFull "a screen is to be pushed onto a task of 32"
    30 NoSuchEdition "a launch names an edition that is none of 0, 6, 7 and 8"
    31 NotTallied "library only, from a tally: it has 65,535 calls already, an accepted height is above 32, or no list of answers gives its numbers"
    32 SeedZero "the seed of a load is 0"
    35 BadKnownFlags "a known flag is none of the seven, or a flag that is not known has a value"
    36 BadStepOrContainer "a step has not 1 to 4 operations, or one of another kind than 1 to 3; or the container has more than 8 steps, or more than 8 panels now or kept"
    37 PanelsFull "an operation would make nine panels"
    38 StepOutOfPlace "a ninth recorded step, an unrecorded step over recorded ones, or Back with none recorded"
}

impl Refusal {
    /// Its number.
    #[must_use]
    pub const fn number(self) -> u8 {
        self as u8
    }

    /// Accepted (0), or the refusal of this number.
    #[inline]
    pub(crate) fn check(number: u8) -> Result<(), Refusal> {
        if number == 0 {
            return Ok(());
        }
        Err(Refusal::try_from(number).expect("the library gives no other number"))
    }
}

/// The refusal of this number, as the player prints it. 0 is none: the call is
/// accepted. 9 is that of a record, played or in a replay, 31 a tally's, 32 a
/// load's, 35 that of fronts, and 36 to 38 are a container's.
impl TryFrom<u8> for Refusal {
    type Error = UnknownNumber;

    fn try_from(number: u8) -> Result<Refusal, UnknownNumber> {
        let known = Refusal::ALL.iter().find(|r| r.number() == number);
        known.copied().ok_or(UnknownNumber {
            number,
            of: "refusal",
        })
    }
}

impl fmt::Display for Refusal {
    fn fmt(&self, f: &mut fmt::Formatter) -> fmt::Result {
        write!(f, "refusal {}: {}", self.number(), self.condition())
    }
}

impl Error for Refusal {}
