//! Recordings with flags missing: which screens could be in front after a plain start of
//! which only some flag bits are known.

use std::collections::BTreeSet;

use crate::table::{flag_word, ALL_FLAGS, FLAG_WORDS};
use crate::{Refusal, Session, Table};

/// The words of the seven flags that have these values where the mask has a bit.
pub fn fillings(mask: u32, value: u32) -> impl Iterator<Item = u32> {
    let words = (0..FLAG_WORDS).map(flag_word);
    words.filter(move |word| word & mask == value)
}

/// The screen in front after a plain start with this word, if it is accepted and leaves
/// a session that is not empty.
pub fn front_after(table: &Table, session: &Session, screen: u8, word: u32) -> Option<u8> {
    let mut after = session.clone();
    after.start(table, screen, word).ok()?;
    after.tasks.first()?.top()
}

/// The screens that some filling of the unknown bits brings to the front.
pub fn fronts(
    table: &[u8],
    session: &Session,
    screen: u8,
    mask: u32,
    value: u32,
) -> Result<BTreeSet<u8>, Refusal> {
    let table = Table::parse(table)?;
    if !session.is_sound(&table) {
        return Err(Refusal::SessionUnsound);
    }
    if !table.has(screen) {
        return Err(Refusal::NoSuchScreen);
    }
    if mask & !ALL_FLAGS != 0 || value & !mask != 0 {
        return Err(Refusal::KnownBits);
    }
    let words = fillings(mask, value);
    Ok(words
        .filter_map(|word| front_after(&table, session, screen, word))
        .collect())
}
