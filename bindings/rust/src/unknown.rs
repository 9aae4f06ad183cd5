//! Numbers and names that stand for nothing.

use std::error::Error;
use std::fmt;

/// A number that no launch mode, no edition, no refusal, or no rule, has.
#[derive(Clone, Copy, Debug, PartialEq, Eq, Hash)]
pub struct UnknownNumber {
    pub(crate) number: u8,
    pub(crate) of: &'static str,
}

impl fmt::Display for UnknownNumber {
    fn fmt(&self, f: &mut fmt::Formatter) -> fmt::Result {
        write!(f, "{} is the number of no {}", self.number, self.of)
    }
}

impl Error for UnknownNumber {}

/// A name that no flag, no launch mode, or no edition, has.
#[derive(Clone, Debug, PartialEq, Eq, Hash)]
pub struct UnknownName {
    pub(crate) name: String,
    pub(crate) of: &'static str,
}

impl fmt::Display for UnknownName {
    fn fmt(&self, f: &mut fmt::Formatter) -> fmt::Result {
        write!(f, "'{}' is the name of no {}", self.name, self.of)
    }
}

impl Error for UnknownName {}

/// The one of these that displays this text.
pub(crate) fn named<T>(all: &[T], name: &str, of: &'static str) -> Result<T, UnknownName>
where
    T: Copy + fmt::Display,
{
    let known = all.iter().find(|one| one.to_string() == name);
    known.copied().ok_or_else(|| UnknownName {
        name: name.to_string(),
        of,
    })
}
