//! Table T, and sessions from their stacks.

pub mod flags;

use milchkompass::{LaunchMode, Screen, Session, Table};

/// Table T of document 01.
pub fn table_t() -> Table {
    let screens = [
        Screen::new(LaunchMode::Standard, 1),
        Screen::new(LaunchMode::Standard, 1),
        Screen::new(LaunchMode::SingleTop, 1),
        Screen::new(LaunchMode::SingleTask, 2),
        Screen::new(LaunchMode::SingleInstance, 1),
        Screen::new(LaunchMode::Standard, 2),
    ];
    Table::new(0, &screens).expect("table T is good")
}

/// The image of these tasks, each its root and its screens, top first.
pub fn image(tasks: &[(u8, &[u8])], main: u8) -> Vec<u8> {
    image_in(8, tasks, main)
}

/// The same in an edition.
pub fn image_in(edition: u8, tasks: &[(u8, &[u8])], main: u8) -> Vec<u8> {
    let mut bytes = Vec::new();
    for (root, screens) in tasks {
        bytes.extend([*root, screens.len() as u8]);
        bytes.extend_from_slice(screens);
    }
    let length = bytes.len() as u16;
    bytes.extend(length.to_be_bytes());
    bytes.extend([tasks.len() as u8, main, edition, 0x42]);
    bytes
}

/// The session of these tasks under table T.
pub fn session(tasks: &[(u8, &[u8])], main: u8) -> Session {
    let mut session = Session::new(table_t());
    let restored = session.restore(&image(tasks, main));
    restored.expect("a sound session");
    session
}
