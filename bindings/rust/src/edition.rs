//! The edition of the rules.

use std::fmt;
use std::str::FromStr;

use crate::unknown::named;
use crate::{UnknownName, UnknownNumber};

/// Whose rules a session follows, by number. Android's API levels are other
/// numbers.
#[derive(Clone, Copy, Debug, Default, PartialEq, Eq, Hash)]
#[repr(u8)]
pub enum Edition {
    /// Android 6.0. Tasks are found by affinity alone, but for single-instance
    /// screens and single-task screens without affinity: R15 never fits.
    Android6 = 6,
    /// Android 7.0. Where R9 fits in the main task, that is emptied, and the
    /// screen opens in it.
    Android7 = 7,
    /// Android 8.0. The edition of an empty session.
    #[default]
    Android8 = 8,
}

impl Edition {
    /// All editions, by number.
    pub const ALL: &'static [Edition] = &[Edition::Android6, Edition::Android7, Edition::Android8];

    /// Its number: 6, 7 or 8.
    #[must_use]
    pub const fn number(self) -> u8 {
        self as u8
    }

    /// The edition that the library gave.
    #[inline]
    pub(crate) fn given(number: u8) -> Edition {
        Edition::try_from(number).expect("the library gives no other number")
    }
}

/// The edition of this number, as an answer and an image have it. 0, which
/// stands for 8 where a session is launched, is none.
impl TryFrom<u8> for Edition {
    type Error = UnknownNumber;

    #[inline]
    fn try_from(number: u8) -> Result<Edition, UnknownNumber> {
        let known = Edition::ALL.iter().find(|e| e.number() == number);
        known.copied().ok_or(UnknownNumber {
            number,
            of: "edition",
        })
    }
}

/// `Android 8.0`
impl fmt::Display for Edition {
    fn fmt(&self, f: &mut fmt::Formatter) -> fmt::Result {
        write!(f, "Android {}.0", self.number())
    }
}

/// The edition that displays so.
///
/// ```
/// use milchkompass::Edition;
///
/// assert_eq!("Android 7.0".parse(), Ok(Edition::Android7));
/// ```
impl FromStr for Edition {
    type Err = UnknownName;

    fn from_str(name: &str) -> Result<Edition, UnknownName> {
        named(Edition::ALL, name, "edition")
    }
}
