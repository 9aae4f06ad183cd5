//! How a screen is started.

use std::fmt;
use std::str::FromStr;

use crate::unknown::named;
use crate::{UnknownName, UnknownNumber};

/// A screen's launch mode, under the names of Android's manifest.
#[derive(Clone, Copy, Debug, Default, PartialEq, Eq, Hash)]
#[repr(u8)]
pub enum LaunchMode {
    /// `standard`
    #[default]
    Standard = 0,
    /// `singleTop`
    SingleTop = 1,
    /// `singleTask`
    SingleTask = 2,
    /// `singleInstance`
    SingleInstance = 3,
}

impl LaunchMode {
    /// All launch modes, by number.
    pub const ALL: &'static [LaunchMode] = &[
        LaunchMode::Standard,
        LaunchMode::SingleTop,
        LaunchMode::SingleTask,
        LaunchMode::SingleInstance,
    ];

    /// Its number: 0 to 3.
    #[must_use]
    pub const fn number(self) -> u8 {
        self as u8
    }

    /// Its name, as `show` and `text` write it.
    #[must_use]
    pub const fn name(self) -> &'static str {
        match self {
            LaunchMode::Standard => "standard",
            LaunchMode::SingleTop => "single-top",
            LaunchMode::SingleTask => "single-task",
            LaunchMode::SingleInstance => "single-instance",
        }
    }
}

/// The mode of this number, as Android's `ActivityInfo` and a table's bytes
/// have it.
impl TryFrom<u8> for LaunchMode {
    type Error = UnknownNumber;

    fn try_from(number: u8) -> Result<LaunchMode, UnknownNumber> {
        let mode = LaunchMode::ALL.get(usize::from(number));
        mode.copied().ok_or(UnknownNumber {
            number,
            of: "launch mode",
        })
    }
}

/// `single-task`
impl fmt::Display for LaunchMode {
    fn fmt(&self, f: &mut fmt::Formatter) -> fmt::Result {
        f.pad(self.name())
    }
}

/// The mode that displays so.
///
/// ```
/// use milchkompass::LaunchMode;
///
/// assert_eq!("single-task".parse(), Ok(LaunchMode::SingleTask));
/// ```
impl FromStr for LaunchMode {
    type Err = UnknownName;

    fn from_str(name: &str) -> Result<LaunchMode, UnknownName> {
        named(LaunchMode::ALL, name, "launch mode")
    }
}
