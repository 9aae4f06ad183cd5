//! Records that everybody can make again from a seed.

use crate::raw;
use crate::{Refusal, Table};

/// What a load gives beside the records in its buffer.
#[derive(Clone, Copy, Debug, PartialEq, Eq, Hash)]
pub struct Load {
    /// How many records it made.
    pub count: usize,
    /// The state of the generator after the last of them, the seed where there
    /// is none. A load from this state goes on where this one ended.
    pub state: u32,
}

impl Table {
    /// Fills the buffer with as many whole records as fit, six bytes each, made
    /// from the seed under this table. The bytes beyond them stay.
    ///
    /// ```
    /// use milchkompass::{LaunchMode, Refusal, Screen, Table};
    ///
    /// # fn main() -> Result<(), Refusal> {
    /// let table = Table::new(0, &[Screen::new(LaunchMode::Standard, 1); 6])?;
    /// let mut whole = [0; 12];
    /// let load = table.load(1, &mut whole)?;
    /// assert_eq!(whole, [4, 2, 0x60, 0, 0, 0, 4, 2, 0x6c, 2, 0, 0]);
    ///
    /// // The same in two parts
    /// let mut part = [0; 6];
    /// let first = table.load(1, &mut part)?;
    /// assert_eq!(part, whole[..6]);
    /// assert_eq!(table.load(first.state, &mut part)?.state, load.state);
    /// assert_eq!(part, whole[6..]);
    /// # Ok(())
    /// # }
    /// ```
    ///
    /// # Errors
    ///
    /// [`SeedZero`](Refusal::SeedZero) if the seed is 0; then the buffer stays.
    pub fn load(&self, seed: u32, out: &mut [u8]) -> Result<Load, Refusal> {
        let reply = raw::load(self.bytes(), seed, out);
        Refusal::check(reply.refusal)?;
        Ok(Load {
            count: reply.count,
            state: reply.state,
        })
    }
}
