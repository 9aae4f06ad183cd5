//! What the flags do to a start.

use crate::raw;

/// The flag chart's entry at an index, or `None` above 511.
///
/// The index is 128 times the screen's launch mode, 64 where the front screen
/// is single-instance, and what the flags are worth: `NEW_TASK` 32,
/// `SINGLE_TOP` 16, `MULTIPLE_TASK` 8, `CLEAR_TOP` 4, `REORDER_TO_FRONT` 2,
/// `CLEAR_TASK` 1. The low three bits of an entry are the class of its rules: 1
/// for R1 and R2, 2 for R3 to R6, 3 for R7 to R10, 4 for R11, 5 for R12 to R18.
/// Added to it are 8 for single, 16 for `CLEAR_TOP`, 32 for `CLEAR_TASK` and 64
/// for `REORDER_TO_FRONT`, where the rules of the class ask for these.
///
/// ```
/// use milchkompass::{chart, LaunchMode};
///
/// // A single-top screen with `CLEAR_TOP`, from a front screen of another mode.
/// let index = 128 * u16::from(LaunchMode::SingleTop.number()) + 4;
/// assert_eq!(chart(index), Some(3 + 8 + 16));
/// assert_eq!(chart(512), None);
/// ```
///
/// # Panics
///
/// If the library that is linked has another interface than this crate.
#[must_use]
pub fn chart(index: u16) -> Option<u8> {
    match raw::chart(index) {
        0 => None,
        entry => Some(entry),
    }
}
