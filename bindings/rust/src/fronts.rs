//! Which screens could be in front, where some flags of a start are not known.

use std::fmt;

use crate::raw;
use crate::Refusal;

/// The screens that could be in front after a start of which some flags are not
/// known. It displays them in order, with commas between.
///
/// ```
/// use milchkompass::{Edition, Flags, LaunchMode, Refusal, Screen, Session, Table};
///
/// # fn main() -> Result<(), Refusal> {
/// let screens = [Screen::new(LaunchMode::Standard, 1), Screen::new(LaunchMode::Standard, 2)];
/// let mut session = Session::new(Table::new(0, &screens)?);
/// session.launch(Edition::Android8)?;
/// session.start(1, Flags::NEW_TASK)?;
/// session.start(0, Flags::NONE)?;
/// // With NEW_TASK the task that began with screen 1 comes as it is, 0 on top.
/// let fronts = session.fronts(1, !Flags::NEW_TASK, Flags::NONE)?;
/// assert_eq!(fronts.to_string(), "0,1");
/// assert!(fronts.contains(0) && !fronts.contains(2));
/// # Ok(())
/// # }
/// ```
#[derive(Clone, Copy, Debug, PartialEq, Eq, Hash)]
pub struct FrontSet {
    set: u64,
    count: u8,
}

impl FrontSet {
    /// What the library gives, or the refusal.
    pub(crate) fn told(given: raw::FrontSet) -> Result<FrontSet, Refusal> {
        Refusal::check(given.refusal)?;
        Ok(FrontSet {
            set: given.set,
            count: given.count,
        })
    }

    /// The set: bit k for screen k.
    #[must_use]
    pub const fn bits(self) -> u64 {
        self.set
    }

    /// How many screens there are.
    #[must_use]
    pub const fn len(self) -> usize {
        self.count as usize
    }

    /// There is none.
    #[must_use]
    pub const fn is_empty(self) -> bool {
        self.count == 0
    }

    /// This screen could be in front.
    #[must_use]
    pub const fn contains(self, screen: u8) -> bool {
        screen < 64 && self.set >> screen & 1 == 1
    }

    /// The screens, in order.
    #[must_use]
    pub fn screens(self) -> impl DoubleEndedIterator<Item = u8> {
        (0..64).filter(move |screen| self.contains(*screen))
    }
}

impl fmt::Display for FrontSet {
    fn fmt(&self, f: &mut fmt::Formatter) -> fmt::Result {
        let screens: Vec<String> = self.screens().map(|screen| screen.to_string()).collect();
        f.pad(&screens.join(","))
    }
}
