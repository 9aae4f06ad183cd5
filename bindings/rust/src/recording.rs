//! A whole recording.

use std::iter::FusedIterator;

use crate::{Played, Refusal, Replay};

/// The records of a whole recording, played one after the other: each record's
/// bytes, and what it came to.
///
/// ```
/// use milchkompass::{Recording, Refusal};
///
/// # fn main() -> Result<(), Refusal> {
/// // One standard screen; then a launch, a start of it, and a record that is cut.
/// let bytes = [
///     1, 0, 0, 1, //
///     1, 7, 0, 0, 0, 0, //
///     2, 0, 0, 0, 0, 0, //
///     4, 0,
/// ];
/// let mut lines = Vec::new();
/// for (record, played) in Recording::new(&bytes)? {
///     lines.push((record[0], played.answer().map(|answer| answer.height)));
/// }
/// assert_eq!(lines, [(1, Ok(1)), (2, Ok(2)), (4, Err(Refusal::BadRecord))]);
/// assert_eq!(Recording::new(&[65, 0]).err(), Some(Refusal::TableLength));
/// # Ok(())
/// # }
/// ```
#[derive(Clone, Debug)]
#[must_use = "records are played as they are asked for"]
pub struct Recording<'a> {
    replay: Replay,
    left: &'a [u8],
    restores: bool,
}

impl<'a> Recording<'a> {
    /// A recording as the player takes it: a table, and records of six bytes, of
    /// which the last may be cut.
    ///
    /// # Errors
    ///
    /// [`TableLength`](Refusal::TableLength) if it does not begin with a table:
    /// there the player stops. Under a table with another refusal its records are
    /// refused.
    ///
    /// # Panics
    ///
    /// If the library that is linked has another interface than this crate.
    pub fn new(bytes: &'a [u8]) -> Result<Recording<'a>, Refusal> {
        let length = bytes.first().map_or(0, |n| 2 + 2 * usize::from(*n));
        let (table, left) = bytes.split_at(length.min(bytes.len()));
        let replay = Replay::new(table);
        match replay.look() {
            Err(Refusal::TableLength) => Err(Refusal::TableLength),
            _ => Ok(Recording {
                replay,
                left,
                restores: false,
            }),
        }
    }

    /// As [`new`](Recording::new), but a record of kind 6 is a restore, and its
    /// image follows it.
    ///
    /// # Errors
    ///
    /// As [`new`](Recording::new).
    ///
    /// # Panics
    ///
    /// As [`new`](Recording::new).
    pub fn with_restores(bytes: &'a [u8]) -> Result<Recording<'a>, Refusal> {
        let recording = Recording::new(bytes)?;
        Ok(Recording {
            restores: true,
            ..recording
        })
    }

    /// The session so far, and its table.
    #[must_use]
    pub fn replay(&self) -> &Replay {
        &self.replay
    }
}

impl<'a> Iterator for Recording<'a> {
    type Item = (&'a [u8], Played);

    fn next(&mut self) -> Option<(&'a [u8], Played)> {
        if self.left.is_empty() {
            return None;
        }
        let played = if self.restores {
            self.replay.next_call(self.left)
        } else {
            self.replay.next(self.left)
        };
        let (record, left) = self.left.split_at(played.used());
        self.left = left;
        Some((record, played))
    }
}

impl FusedIterator for Recording<'_> {}
