//! The image of a session: its tasks, front first, each as root, height and
//! screens top first, and then a trailer of six bytes that points back.

use crate::edition::EDITIONS;
use crate::session::{MAX_HEIGHT, MAX_TASKS};
use crate::{Refusal, Session, Table, Task};

/// The last byte of every image.
const LAST: u8 = 0x42;
/// The length of the trailer: L in two bytes, n, m, the edition and the last byte.
const TRAILER: usize = 6;
/// The bit of the m byte that is set where the front screen is a No-History one.
const NO_HISTORY_BIT: u8 = 0x80;

impl Session {
    /// The image of a sound session.
    pub fn image(&self) -> Vec<u8> {
        let mut bytes = Vec::new();
        for task in &self.tasks {
            bytes.push(task.root);
            bytes.push(task.height() as u8);
            bytes.extend(task.screens.iter().rev().map(|screen| screen.number));
        }
        let length = bytes.len() as u16;
        bytes.extend(length.to_be_bytes());
        bytes.push(self.tasks.len() as u8);
        let mark = if self.no_history { NO_HISTORY_BIT } else { 0 };
        bytes.push(self.main as u8 | mark);
        bytes.extend([self.edition, LAST]);
        bytes
    }

    /// The session that a whole image describes.
    pub fn from_image(table: &Table, image: &[u8]) -> Result<Session, Refusal> {
        let length = image
            .len()
            .checked_sub(TRAILER)
            .ok_or(Refusal::ImageTrailer)?;
        let (body, trailer) = image.split_at(length);
        let &[high, low, count, main, edition, LAST] = trailer else {
            return Err(Refusal::ImageTrailer);
        };
        let stated = u16::from_be_bytes([high, low]);
        if !EDITIONS.contains(&edition) || usize::from(stated) != length {
            return Err(Refusal::ImageTrailer);
        }
        let tasks = read_tasks(body, usize::from(count)).ok_or(Refusal::ImageTasks)?;
        let session = Session {
            tasks,
            main: usize::from(main & !NO_HISTORY_BIT),
            edition,
            no_history: main & NO_HISTORY_BIT != 0,
        };
        if !session.is_sound(table) {
            return Err(Refusal::ImageUnsound);
        }
        Ok(session)
    }
}

/// Reads exactly `count` tasks, at most 16, from all of the bytes.
fn read_tasks(mut bytes: &[u8], count: usize) -> Option<Vec<Task>> {
    if count > MAX_TASKS {
        return None;
    }
    let mut tasks = Vec::with_capacity(count);
    for _ in 0..count {
        let [root, height, rest @ ..] = bytes else {
            return None;
        };
        let height = usize::from(*height);
        if !(1..=MAX_HEIGHT).contains(&height) || rest.len() < height {
            return None;
        }
        let (screens, rest) = rest.split_at(height);
        tasks.push(Task::new(*root, screens));
        bytes = rest;
    }
    bytes.is_empty().then_some(tasks)
}
