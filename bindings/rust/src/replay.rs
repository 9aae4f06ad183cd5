//! Recordings, record by record.

use std::fmt;

use crate::raw;
use crate::session::tasks_of;
use crate::{Answer, Edition, Flags, FrontSet, LaunchMode, Reason, Refusal, Task, UnknownNumber};

/// A session that plays the records of a recording, one after the other, as the
/// player does. It takes any bytes for its table: under one that is refused,
/// records are refused.
///
/// ```
/// use milchkompass::{Refusal, Replay};
///
/// // One standard screen; then a launch, a start of it, and a record that is cut.
/// let recording = [
///     1, 0, 0, 1, //
///     1, 7, 0, 0, 0, 0, //
///     2, 0, 0, 0, 0, 0, //
///     4, 0,
/// ];
/// let (table, mut left) = recording.split_at(4);
/// let mut replay = Replay::new(table);
/// let mut lines = Vec::new();
/// while !left.is_empty() {
///     let played = replay.next(left);
///     lines.push(played.numbers());
///     left = &left[played.used()..];
/// }
/// assert_eq!(lines[1], [0, 0, 0, 2, 1, 1, 0, 7, 0]);
/// assert_eq!(lines[2], [Refusal::BadRecord.number(), 0, 0, 0, 0, 0, 0, 0, 0]);
/// ```
pub struct Replay {
    table: Vec<u8>,
    stored: raw::Session,
}

impl Clone for Replay {
    fn clone(&self) -> Replay {
        Replay {
            table: self.table.clone(),
            stored: self.stored,
        }
    }

    /// Copies the tasks that stand or stood: storage beyond them holds 0 in both.
    fn clone_from(&mut self, from: &Replay) {
        self.table.clone_from(&from.table);
        let tasks = usize::from(self.stored.n.max(from.stored.n));
        let (kept, stood) = (&mut self.stored, &from.stored);
        kept.tasks[..tasks].copy_from_slice(&stood.tasks[..tasks]);
        kept.n = stood.n;
        kept.main = stood.main;
        kept.edition = stood.edition;
        kept.no_history = stood.no_history;
    }
}

/// `Replay(3:[3] 0:[1,0], m 2)`
impl fmt::Debug for Replay {
    fn fmt(&self, f: &mut fmt::Formatter) -> fmt::Result {
        write!(f, "Replay({})", self.stored)
    }
}

/// What a record came to.
#[derive(Clone, Copy, Debug)]
pub struct Played {
    answer: raw::Answer,
    used: usize,
}

/// A row of a table that may be any bytes.
#[derive(Clone, Copy, Debug, PartialEq, Eq, Hash)]
pub struct Row {
    /// How the screen is started, or the number that is no launch mode.
    pub mode: Result<LaunchMode, UnknownNumber>,
    /// Which tasks it belongs with; 0 is none.
    pub affinity: u8,
}

impl Replay {
    /// A fresh session under a table of these bytes.
    ///
    /// # Panics
    ///
    /// If the library that is linked has another interface than this crate.
    #[must_use]
    pub fn new(table: &[u8]) -> Replay {
        Replay {
            table: table.to_vec(),
            stored: raw::fresh(),
        }
    }

    /// Plays the record at the start of these bytes. It takes six of them, or all
    /// where they are fewer; a restore is an unknown kind.
    #[inline]
    pub fn next(&mut self, bytes: &[u8]) -> Played {
        Played {
            answer: raw::play(&self.table, &mut self.stored, bytes),
            used: raw::record_length(bytes),
        }
    }

    /// As [`next`](Replay::next), but a record of kind 6 is a restore of the image
    /// that follows it, whose length is its word; it takes that image too.
    #[inline]
    pub fn next_call(&mut self, bytes: &[u8]) -> Played {
        Played {
            answer: raw::play_call(&self.table, &mut self.stored, bytes),
            used: raw::call_length(bytes),
        }
    }

    /// Look: what is in front now.
    ///
    /// # Errors
    ///
    /// The table's: [`TableLength`](Refusal::TableLength) or
    /// [`TableContent`](Refusal::TableContent).
    pub fn look(&self) -> Result<Answer, Refusal> {
        Answer::given(raw::look(&self.table, &self.stored))
    }

    /// Why a start, or a finishing start, of this screen would go as it does now.
    ///
    /// # Errors
    ///
    /// Those of the start, and the table's.
    #[inline]
    pub fn why(&self, screen: u8, flags: Flags) -> Result<Reason, Refusal> {
        let (table, word) = (&self.table, flags.bits());
        Reason::told(raw::why(table, &self.stored, screen, word))
    }

    /// Which screens could be in front now after a start of this screen of which
    /// only these flags are known, with these values.
    ///
    /// # Errors
    ///
    /// The first that applies: the table's,
    /// [`NoSuchScreen`](Refusal::NoSuchScreen),
    /// [`BadKnownFlags`](Refusal::BadKnownFlags).
    pub fn fronts(&self, screen: u8, known: Flags, values: Flags) -> Result<FrontSet, Refusal> {
        let (mask, value) = (known.bits(), values.bits());
        FrontSet::told(raw::fronts(&self.table, &self.stored, screen, mask, value))
    }

    /// The table's bytes.
    #[must_use]
    pub fn table(&self) -> &[u8] {
        &self.table
    }

    /// The table's rows, by the number of their screen.
    #[must_use]
    pub fn rows(&self) -> impl DoubleEndedIterator<Item = Row> + ExactSizeIterator + '_ {
        let rows = self.table.get(2..).unwrap_or_default();
        rows.chunks_exact(2).map(|row| Row {
            mode: LaunchMode::try_from(row[0]),
            affinity: row[1],
        })
    }

    /// The tasks, front first.
    #[must_use]
    #[inline]
    pub fn tasks(&self) -> impl DoubleEndedIterator<Item = Task<'_>> + ExactSizeIterator + Clone {
        tasks_of(&self.stored)
    }

    /// The place (from 1) of the task made by launch, 0 if it is gone.
    #[must_use]
    #[inline]
    pub fn main_place(&self) -> u8 {
        self.stored.main
    }

    /// The session's edition, Android 8.0 where it is empty.
    #[must_use]
    #[inline]
    pub fn edition(&self) -> Edition {
        Edition::given(self.stored.edition)
    }

    /// The session's No-History mark.
    #[must_use]
    #[inline]
    pub fn no_history(&self) -> bool {
        self.stored.no_history != 0
    }
}

impl Played {
    /// The nine numbers of the answer, as the player prints them behind the kind.
    #[must_use]
    #[inline]
    pub fn numbers(&self) -> [u8; 9] {
        let a = &self.answer;
        [
            a.refusal,
            a.screen,
            a.root,
            a.height,
            a.tasks,
            a.main,
            a.closed,
            a.edition,
            a.no_history,
        ]
    }

    /// The answer.
    ///
    /// # Errors
    ///
    /// The refusal: [`BadRecord`](Refusal::BadRecord) for a record of an unknown
    /// kind or a cut one, the table's, or that of the call.
    pub fn answer(&self) -> Result<Answer, Refusal> {
        Answer::given(self.answer)
    }

    /// Why the record was refused, if it was.
    #[must_use]
    #[inline]
    pub fn refusal(&self) -> Option<Refusal> {
        Refusal::check(self.answer.refusal).err()
    }

    /// How many screens the record closed.
    #[must_use]
    #[inline]
    pub fn closed(&self) -> u8 {
        self.answer.closed
    }

    /// How many bytes the record took.
    #[must_use]
    #[inline]
    pub fn used(&self) -> usize {
        self.used
    }
}

/// Whether two lists of calls end in sessions that no later list tells apart.
/// Both begin fresh under this table, and are read as by
/// [`next_call`](Replay::next_call); records that are refused change nothing.
///
/// # Errors
///
/// The table's: [`TableLength`](Refusal::TableLength) or
/// [`TableContent`](Refusal::TableContent).
///
/// # Panics
///
/// If the library that is linked has another interface than this crate.
pub fn same_ending(table: &[u8], first: &[u8], second: &[u8]) -> Result<bool, Refusal> {
    let ending = raw::same_ending(table, first, second);
    Refusal::check(ending.refusal)?;
    Ok(ending.alike)
}
