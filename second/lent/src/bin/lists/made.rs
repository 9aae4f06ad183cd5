//! Random records and lists of them.

use second::lists::{self, RESTORE};
use second::random::Random;
use second::session::MAX_TASKS;
use second::Session;

use lent_calls::damage;
use lent_calls::sessions::{self, Listed};
use lent_calls::starts::{flags, screen};

/// Weights of launch, start, finishing start, Back, look, restore and another kind.
const WEIGHTS: [u64; 7] = [4, 40, 20, 12, 4, 12, 8];

/// A record for a session under a table, whole or with a wrong length of its image.
pub fn record(random: &mut Random, listed: &Listed, session: &Session) -> Vec<u8> {
    if session.is_empty() && random.percent(40) {
        return plain(1, random.edition_byte(), ignored(random));
    }
    match random.weighted(&WEIGHTS) {
        0 => plain(1, random.edition_byte(), ignored(random)),
        kind @ (1 | 2) => {
            let started = screen(random, listed, session);
            plain(kind as u8 + 1, started, flags(random))
        }
        kind @ (3 | 4) => plain(kind as u8 + 1, random.byte(256), ignored(random)),
        5 => restore(random, listed, session),
        _ => {
            let kind = random.one_of(&[0, 7, 8, 255]);
            plain(kind, random.byte(256), ignored(random))
        }
    }
}

fn plain(kind: u8, screen: u8, word: u32) -> Vec<u8> {
    [&[kind, screen][..], &word.to_be_bytes()].concat()
}

/// A word that the call does not look at.
fn ignored(random: &mut Random) -> u32 {
    match random.below(3) {
        0 => random.next() as u32,
        _ => 0,
    }
}

/// A restore of this image.
pub fn restore_of(image: &[u8]) -> Vec<u8> {
    [plain(RESTORE, 0, image.len() as u32), image.to_vec()].concat()
}

/// A restore of an image, good or changed, or with another length than it has.
fn restore(random: &mut Random, listed: &Listed, session: &Session) -> Vec<u8> {
    let image = match random.below(4) {
        0 => session.image(),
        1 => sessions::sound(random, listed).image(),
        2 => sessions::built(random, listed, MAX_TASKS, 32, 32).image(),
        _ => damage::image(random, listed, session),
    };
    let mut record = restore_of(&image);
    record[1] = random.byte(256);
    if random.percent(15) {
        let length = image.len() as u32;
        let other = random.one_of(&[0, length.saturating_sub(1), length + 1, 6, 0xff, u32::MAX]);
        record[2..6].copy_from_slice(&other.to_be_bytes());
    }
    record
}

/// Bytes that begin with this record: it alone, more behind it, or cut.
pub fn beginning(random: &mut Random, listed: &Listed, record: &[u8]) -> Vec<u8> {
    match random.below(10) {
        0 => {
            let length = random.below(record.len() as u64);
            record[..length as usize].to_vec()
        }
        1..=4 => record.to_vec(),
        5 => [record, &damage::noise(random, 20)].concat(),
        _ => {
            let behind = self::record(random, listed, &Session::fresh());
            [record, &behind].concat()
        }
    }
}

/// A list of so many records, each made for the session that it gets.
pub fn list(random: &mut Random, listed: &Listed, records: u64) -> Vec<u8> {
    let mut session = Session::fresh();
    let mut list = Vec::new();
    for _ in 0..records {
        let record = record(random, listed, &session);
        lists::play_call(&listed.bytes, &mut session, &record);
        list.extend(record);
    }
    list
}

/// A list that ends as this one does, nearly so, or otherwise.
pub fn other(random: &mut Random, listed: &Listed, list: &[u8]) -> Vec<u8> {
    let ending = lists::ending(&listed.bytes, list);
    let more = match random.below(9) {
        // What is no call, or changes nothing.
        0 => plain(random.one_of(&[0, 7, 255]), 0, 0),
        1 => plain(5, 0, 0),
        2 => plain(2, 255, 0),
        // A start and a Back, or a record.
        3 => {
            let started = screen(random, listed, &ending);
            [plain(2, started, 0), plain(4, 0, 0)].concat()
        }
        4 => record(random, listed, &ending),
        5 => return without_one(random, list),
        6 => return restore_of(&ending.image()),
        7 => return restore_of(&nearly(random, ending).image()),
        _ => {
            let records = random.between(0, 12);
            return self::list(random, listed, records);
        }
    };
    [list, &more].concat()
}

/// The list without one of its records.
fn without_one(random: &mut Random, list: &[u8]) -> Vec<u8> {
    let mut places = vec![0];
    while places[places.len() - 1] < list.len() {
        let at = places[places.len() - 1];
        places.push(at + lists::call_length(&list[at..]));
    }
    let Some(last) = places.len().checked_sub(2) else {
        return Vec::new();
    };
    let at = random.between(0, last as u64) as usize;
    [&list[..places[at]], &list[places[at + 1]..]].concat()
}

/// The session with one number changed, sound or not.
fn nearly(random: &mut Random, mut session: Session) -> Session {
    let tasks = session.tasks.len() as u64;
    if tasks == 0 {
        return session;
    }
    match random.below(4) {
        0 => session.no_history = !session.no_history,
        1 => session.edition = random.one_of(&[6, 7, 8]),
        2 => session.main = random.between(0, tasks) as usize,
        _ => {
            let at = random.below(tasks) as usize;
            session.tasks[at].root = random.byte(64);
        }
    }
    session
}
