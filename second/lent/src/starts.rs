//! Random screens and flag words for starts.

use second::random::Random;
use second::table::{ALL_FLAGS, FLAGS};
use second::Session;

use crate::sessions::Listed;

/// Any listed screen, one that stands in the session, or one that is not listed.
pub fn screen(random: &mut Random, listed: &Listed, session: &Session) -> u8 {
    let part = random.below(100);
    if part < 4 {
        let beyond = random.between(u64::from(listed.screens), 255) as u8;
        return random.one_of(&[listed.screens, 64, beyond, 255]);
    }
    if part < 50 || session.is_empty() {
        return random.byte(u16::from(listed.screens));
    }
    let task = match random.below(3) {
        0 => &session.tasks[0],
        _ => &session.tasks[random.below(session.tasks.len() as u64) as usize],
    };
    match random.below(4) {
        0 => task.root,
        1 => task.top().expect("a task has a screen"),
        _ => task.screens[random.below(task.height() as u64) as usize].number,
    }
}

/// No flag, one of the seven, any set of them, or a word with other bits.
pub fn flags(random: &mut Random) -> u32 {
    let set = random.next() as u32 & ALL_FLAGS;
    match random.below(100) {
        0..=24 => 0,
        25..=49 => random.one_of(&FLAGS),
        50..=95 => set,
        96 => random.next() as u32,
        97 => 1 << random.below(32),
        _ => set | 1 << random.below(32),
    }
}
