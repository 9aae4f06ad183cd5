//! Lists of calls as bytes: the player's records, and beside them records of kind 6,
//! restores, whose word is the length of an image and behind which the image follows.
//!
//! Here a single record is played on any session with all checks, and whole lists
//! are played from a fresh session, to ask whether two of them end alike.

use crate::play::RECORD;
use crate::{calls, Answer, Refusal, Session, Table};

/// The kind of a restore.
pub const RESTORE: u8 = 6;

/// What stands at the start of a list.
pub enum First<'a> {
    /// A record of six bytes, of any kind but a restore's.
    Record([u8; RECORD]),
    /// A restore of this image.
    Restore(&'a [u8]),
    /// Fewer bytes than the record has, or none.
    Cut,
}

/// What stands at the start of a list, and the bytes behind it.
pub fn split(list: &[u8]) -> (First<'_>, &[u8]) {
    let Some((&record, behind)) = list.split_first_chunk::<RECORD>() else {
        return (First::Cut, &[]);
    };
    if record[0] != RESTORE {
        return (First::Record(record), behind);
    }
    let length = word(record) as usize;
    match behind.split_at_checked(length) {
        Some((image, behind)) => (First::Restore(image), behind),
        None => (First::Cut, &[]),
    }
}

/// A record's word, high byte first.
fn word([_, _, w0, w1, w2, w3]: [u8; RECORD]) -> u32 {
    u32::from_be_bytes([w0, w1, w2, w3])
}

/// How many bytes the first record takes, where there are no restores.
pub fn record_length(list: &[u8]) -> usize {
    list.len().min(RECORD)
}

/// How many bytes the first record takes, with the image of a restore.
pub fn call_length(list: &[u8]) -> usize {
    let (_, behind) = split(list);
    list.len() - behind.len()
}

/// Plays the first record, where there are no restores.
pub fn play(table: &[u8], session: &mut Session, list: &[u8]) -> Answer {
    match list.first_chunk() {
        Some(&record) => make(table, session, record),
        None => Answer::refused(Refusal::BadRecord),
    }
}

/// Plays the first record, which may be a restore.
pub fn play_call(table: &[u8], session: &mut Session, list: &[u8]) -> Answer {
    match split(list).0 {
        First::Record(record) => make(table, session, record),
        First::Restore(image) => calls::restore(table, session, image),
        First::Cut => Answer::refused(Refusal::BadRecord),
    }
}

/// Makes the call of a record of six bytes. An unknown kind comes before all checks.
fn make(table: &[u8], session: &mut Session, record: [u8; RECORD]) -> Answer {
    let [kind, screen, ..] = record;
    let flags = word(record);
    match kind {
        1 => calls::launch(table, session, screen),
        2 => calls::start(table, session, screen, flags),
        3 => calls::finishing_start(table, session, screen, flags),
        4 => calls::back(table, session),
        5 => calls::look(table, session),
        _ => Answer::refused(Refusal::BadRecord),
    }
}

/// The session after a whole list, from a fresh one. What is no call changes nothing,
/// and a cut record ends the list.
pub fn ending(table: &[u8], list: &[u8]) -> Session {
    let mut session = Session::fresh();
    let mut left = list;
    while !left.is_empty() {
        play_call(table, &mut session, left);
        left = split(left).1;
    }
    session
}

/// Whether two lists end in sessions that no later list of calls without restores
/// tells apart: those with equal images.
pub fn same_ending(table: &[u8], first: &[u8], second: &[u8]) -> Result<bool, Refusal> {
    Table::parse(table)?;
    Ok(ending(table, first).image() == ending(table, second).image())
}

/// Whether looks and Backs tell two sessions apart, made until no task stands in
/// either.
pub fn told_apart(table: &[u8], mut one: Session, mut other: Session) -> bool {
    loop {
        if calls::look(table, &one) != calls::look(table, &other) {
            return true;
        }
        if one.is_empty() && other.is_empty() {
            return false;
        }
        if calls::back(table, &mut one) != calls::back(table, &mut other) {
            return true;
        }
    }
}
