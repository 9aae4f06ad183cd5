//! The editions: the rules of Android 6.0, 7.0 and 8.0.

use crate::Refusal;

/// Except for single-instance screens, tasks are sought by affinity only.
pub const SIX: u8 = 6;
/// Reordering inside the main task empties it.
pub const SEVEN: u8 = 7;
/// The rules as they stand, and what every empty session has.
pub const EIGHT: u8 = 8;

/// The editions that are kept.
pub const EDITIONS: [u8; 3] = [SIX, SEVEN, EIGHT];

/// The edition that launch names by this byte, where 0 stands for 8.
pub fn named(byte: u8) -> Result<u8, Refusal> {
    match byte {
        0 => Ok(EIGHT),
        _ if EDITIONS.contains(&byte) => Ok(byte),
        _ => Err(Refusal::NoSuchEdition),
    }
}
