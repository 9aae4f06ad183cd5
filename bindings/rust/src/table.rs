//! The screen table.

use crate::raw;
use crate::{LaunchMode, Refusal};

/// A row of the table.
#[derive(Clone, Copy, Debug, PartialEq, Eq, Hash)]
pub struct Screen {
    /// How the screen is started.
    pub mode: LaunchMode,
    /// Which tasks it belongs with: affinities are compared as numbers, and 0 is
    /// none.
    pub affinity: u8,
}

impl Screen {
    /// A screen of this mode and affinity.
    #[must_use]
    pub const fn new(mode: LaunchMode, affinity: u8) -> Screen {
        Screen { mode, affinity }
    }
}

/// A good table: 1 to 64 screens, one of them the main screen. A screen's
/// number is its place in the table, from 0.
#[derive(Clone, Debug, PartialEq, Eq, Hash)]
pub struct Table(Vec<u8>);

impl Table {
    /// The table of these screens.
    ///
    /// # Errors
    ///
    /// [`TableLength`](Refusal::TableLength) if they are not 1 to 64,
    /// [`TableContent`](Refusal::TableContent) if the main screen is not one of
    /// them.
    ///
    /// # Panics
    ///
    /// If the library that is linked has another interface than this crate.
    pub fn new(main: u8, screens: &[Screen]) -> Result<Table, Refusal> {
        // Where N is no byte the largest stands for it, and is refused as well.
        let n = u8::try_from(screens.len()).unwrap_or(u8::MAX);
        let mut bytes = vec![n, main];
        for screen in screens {
            bytes.extend([screen.mode.number(), screen.affinity]);
        }
        Table::checked(bytes)
    }

    /// The table that these bytes are: N, the main screen, then N times a mode
    /// and an affinity.
    ///
    /// # Errors
    ///
    /// As [`Table::new`], and [`TableContent`](Refusal::TableContent) for a
    /// mode above 3.
    ///
    /// # Panics
    ///
    /// As [`Table::new`].
    pub fn from_bytes(bytes: &[u8]) -> Result<Table, Refusal> {
        Table::checked(bytes.to_vec())
    }

    /// The table's bytes.
    #[must_use]
    pub fn bytes(&self) -> &[u8] {
        &self.0
    }

    /// How many screens there are: 1 to 64.
    #[must_use]
    #[allow(clippy::len_without_is_empty)] // it is never empty
    pub fn len(&self) -> usize {
        usize::from(self.0[0])
    }

    /// The main screen.
    #[must_use]
    pub fn main(&self) -> u8 {
        self.0[1]
    }

    /// The screens, by number.
    #[must_use]
    pub fn screens(&self) -> impl DoubleEndedIterator<Item = Screen> + ExactSizeIterator + '_ {
        self.0[2..].chunks_exact(2).map(|row| {
            let mode = LaunchMode::try_from(row[0]).expect("the table is good");
            Screen::new(mode, row[1])
        })
    }

    /// A look at a fresh session is refused only by the table.
    fn checked(bytes: Vec<u8>) -> Result<Table, Refusal> {
        let answer = raw::look(&bytes, &raw::fresh());
        Refusal::check(answer.refusal)?;
        Ok(Table(bytes))
    }
}

/// As [`Table::from_bytes`].
impl TryFrom<&[u8]> for Table {
    type Error = Refusal;

    fn try_from(bytes: &[u8]) -> Result<Table, Refusal> {
        Table::from_bytes(bytes)
    }
}
