//! The table at the start of a recording.

use milchkompass::{Played, Refusal, Replay};

use crate::failure::{said, Outcome};
use crate::input::Input;

/// What a recording begins with.
pub enum Opening {
    /// A table, under which records are played.
    Table(Box<Replay>),
    /// None: what the player answers, before it stops.
    Stopped(Played),
}

/// A look, which changes nothing: only the table can refuse it on a fresh session.
const LOOK: [u8; 6] = [5, 0, 0, 0, 0, 0];

/// How long a table is that begins with these bytes.
pub fn table_length(bytes: &[u8]) -> usize {
    bytes.first().map_or(0, |n| 2 + 2 * usize::from(*n))
}

/// The table at the start of these bytes, which are all or longer than any table.
pub fn begin(bytes: &[u8]) -> Opening {
    let length = table_length(bytes).min(bytes.len());
    let mut replay = Replay::new(&bytes[..length]);
    let looked = replay.next(&LOOK);
    if looked.refusal() == Some(Refusal::TableLength) {
        return Opening::Stopped(looked);
    }
    Opening::Table(Box::new(replay))
}

/// Reads the table, and goes on behind it.
pub fn read(input: &mut Input) -> Outcome<Opening> {
    let length = table_length(input.peek(1)?);
    let opening = begin(input.peek(length)?);
    if let Opening::Table(replay) = &opening {
        input.take(replay.table().len());
    }
    Ok(opening)
}

/// Reads the table, or says that there is none.
pub fn read_table(input: &mut Input) -> Outcome<Replay> {
    match read(input)? {
        Opening::Table(replay) => Ok(*replay),
        Opening::Stopped(played) => said(no_table(input.name(), played)),
    }
}

/// What is said of a file that begins with no table.
pub fn no_table(name: &str, played: Played) -> String {
    let words = played.refusal().map_or(String::new(), |r| r.to_string());
    format!("{name} begins with no table: {words}")
}
