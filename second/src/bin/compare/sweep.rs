//! The sweep: under every table of two or three screens and in each edition, every
//! session of a few tasks of height up to 2 that plain starts (no flag set) and
//! Backs reach from launch; from each of them every screen with all 64 words of the
//! six flags that choose rules by a start and by a finishing start, by turns with the
//! No-History flag and without it; and again from the same session with a No-History
//! front, where the last start to it makes one with the flag. Under tables of two
//! screens the starts that reach a session may have any of the six; with three
//! screens those sessions are about three million. A few tasks are up to 3 in edition
//! 8 and, with three screens, in 6; else up to 2, which keeps the sweep short.
//!
//! A player knows only a fresh session, so each session is reached by its path
//! of records; after the call come Backs until the session is empty, so that
//! their answers show the whole of it.

use std::collections::HashSet;
use std::fmt;
use std::ops::Range;

use second::edition::{EDITIONS, EIGHT, SIX};
use second::play::{Player, RECORD};
use second::table::{flag_word, FLAG_WORDS};
use second::{Session, Table};

use crate::check::{Checker, Difference, Input};
use crate::make::{launch, record};
use crate::no_history::with_no_history;

/// The height of the largest tasks from which calls are made.
const HEIGHT: usize = 2;

/// How many tasks the largest sessions have from which calls are made.
fn most_tasks(screens: u8, edition: u8) -> usize {
    match (screens, edition) {
        (_, EIGHT) | (3, SIX) => 3,
        _ => 2,
    }
}

/// About how many bytes of records are played in one run.
const BATCH: usize = 6_000_000;

/// What a sweep came to.
#[derive(Default)]
pub struct Swept {
    tables: u64,
    sessions: u64,
    calls: u64,
}

impl fmt::Display for Swept {
    fn fmt(&self, f: &mut fmt::Formatter) -> fmt::Result {
        write!(
            f,
            "{} tables, {} sessions, {} calls",
            self.tables, self.sessions, self.calls
        )
    }
}

/// The sessions of an edition that are small enough, each with a shortest path to
/// it.
fn reach(table: &Table, screens: u8, edition: u8) -> Vec<(Session, Vec<u8>)> {
    let tasks = most_tasks(screens, edition);
    let launch = launch(edition);
    let launched = session_after(table, &Session::fresh(), &launch);
    let mut seen = HashSet::from([launched.clone()]);
    let mut reached = vec![(launched, launch.to_vec())];
    let mut next = 0;
    while next < reached.len() {
        let (from, path) = reached[next].clone();
        next += 1;
        let starts = calls(screens, SIX_FLAGS)
            .filter(|call| call[0] == 2 && (screens == 2 || is_plain(call)));
        for step in starts.chain([record(4, 0, 0)]) {
            let session = session_after(table, &from, &step);
            if is_small(&session, tasks) && seen.insert(session.clone()) {
                reached.push((session, [&path[..], &step].concat()));
            }
        }
    }
    reached
}

fn is_plain(call: &[u8; RECORD]) -> bool {
    call[2..] == [0; 4]
}

fn is_small(session: &Session, tasks: usize) -> bool {
    (1..=tasks).contains(&session.tasks.len())
        && session.tasks.iter().all(|task| task.height() <= HEIGHT)
}

/// Affinities, up to renaming of those other than 0, of two or three screens, the
/// last of them the main one.
struct Affinities {
    screens: &'static [u8],
    /// Whether the first two of three can change places and the affinities are
    /// these, renamed; of two such tables one is swept.
    alike: bool,
}

const fn unlike(screens: &'static [u8]) -> Affinities {
    let alike = false;
    Affinities { screens, alike }
}

const fn alike(screens: &'static [u8]) -> Affinities {
    let alike = true;
    Affinities { screens, alike }
}

const AFFINITIES: [Affinities; 16] = [
    unlike(&[1, 1]),
    unlike(&[1, 5]),
    unlike(&[0, 1]),
    unlike(&[1, 0]),
    unlike(&[0, 0]),
    alike(&[1, 1, 1]),
    alike(&[1, 1, 5]),
    alike(&[1, 5, 255]),
    alike(&[1, 1, 0]),
    alike(&[1, 5, 0]),
    alike(&[0, 0, 1]),
    alike(&[0, 0, 0]),
    unlike(&[5, 255, 255]),
    unlike(&[0, 1, 1]),
    unlike(&[0, 1, 5]),
    unlike(&[0, 1, 0]),
];

/// All small tables. Every other table is one of these with its screens renamed.
fn tables() -> Vec<Vec<u8>> {
    let mut tables = Vec::new();
    for Affinities { screens, alike } in AFFINITIES {
        let count = screens.len() as u8;
        for modes in 0..4u32.pow(u32::from(count)) {
            let mode = |screen: usize| (modes >> (2 * screen) & 3) as u8;
            if alike && mode(0) > mode(1) {
                continue;
            }
            let mut table = vec![count, count - 1];
            for (screen, &affinity) in screens.iter().enumerate() {
                table.extend([mode(screen), affinity]);
            }
            tables.push(table);
        }
    }
    tables
}

/// Sweeps all small tables.
pub fn sweep(checker: &mut Checker) -> Result<Swept, Box<Difference>> {
    let mut swept = Swept::default();
    for bytes in tables() {
        let table = Table::parse(&bytes).expect("the table is good");
        let screens = bytes[0];
        let mut batch = Batch::new("sweep", bytes);
        for edition in EDITIONS {
            for (_, path) in reach(&table, screens, edition) {
                swept.sessions += batch.by_turns(checker, &path)?;
            }
        }
        batch.finish(checker)?;
        swept.tables += 1;
        swept.calls += batch.calls;
    }
    Ok(swept)
}

/// Records that are gathered and played in large runs; each run begins and ends
/// with an empty session.
pub struct Batch {
    table: Table,
    screens: u8,
    input: Input,
    pub calls: u64,
}

impl Batch {
    pub fn new(what: &str, table: Vec<u8>) -> Batch {
        Batch {
            screens: table[0],
            table: Table::parse(&table).expect("the table is good"),
            input: Input {
                what: what.to_string(),
                table,
                records: Vec::new(),
            },
            calls: 0,
        }
    }

    /// Makes every call from one session, to which the path leads.
    pub fn all_calls(
        &mut self,
        checker: &mut Checker,
        session: &Session,
        path: &[u8],
    ) -> Result<(), Box<Difference>> {
        for call in calls(self.screens, SEVEN_FLAGS) {
            self.call(checker, session, path, call)?;
        }
        Ok(())
    }

    /// Makes every call from the session to which the path leads, and from the same
    /// with a No-History front if the path can make one, by turns without and with
    /// the No-History flag; gives how many sessions these are.
    fn by_turns(&mut self, checker: &mut Checker, path: &[u8]) -> Result<u64, Box<Difference>> {
        let mut fronts = vec![path.to_vec(), with_no_history(path)];
        fronts.retain(|front| front == path || self.reached(front).no_history);
        for (first, path) in (0..).zip(&fronts) {
            let session = self.reached(path);
            let words = calls(self.screens, SIX_FLAGS).zip(calls(self.screens, SEVENTH_FLAG));
            for (number, (without, with)) in (0u32..).zip(words) {
                // By the ones, so that no other flag goes with it always or never.
                let turn = first + number.count_ones() as usize;
                self.call(checker, &session, path, [without, with][turn % 2])?;
            }
        }
        Ok(fronts.len() as u64)
    }

    /// Makes one call from a session, to which the path leads.
    pub fn call(
        &mut self,
        checker: &mut Checker,
        session: &Session,
        path: &[u8],
        call: [u8; RECORD],
    ) -> Result<(), Box<Difference>> {
        let left = session_after(&self.table, session, &call);
        let standing: usize = left.tasks.iter().map(|task| task.height()).sum();
        self.input.records.extend(path);
        self.input.records.extend(call);
        self.input.records.extend(record(4, 0, 0).repeat(standing));
        self.calls += 1;
        if self.input.records.len() >= BATCH {
            self.finish(checker)?;
        }
        Ok(())
    }

    /// The session that a path leads to.
    pub fn reached(&self, path: &[u8]) -> Session {
        let (steps, _) = path.as_chunks();
        let after = |session, step| session_after(&self.table, &session, step);
        steps.iter().fold(Session::fresh(), after)
    }

    /// Plays what is gathered.
    pub fn finish(&mut self, checker: &mut Checker) -> Result<(), Box<Difference>> {
        checker.check(&self.input)?;
        self.input.records.clear();
        Ok(())
    }
}

/// The numbers of the words without the No-History flag, of those with it, and of
/// all.
pub const SIX_FLAGS: Range<u32> = 0..FLAG_WORDS / 2;
pub const SEVENTH_FLAG: Range<u32> = FLAG_WORDS / 2..FLAG_WORDS;
const SEVEN_FLAGS: Range<u32> = 0..FLAG_WORDS;

/// Every screen with the flag words of these numbers, by a start and by a finishing
/// start.
pub fn calls(screens: u8, words: Range<u32>) -> impl Iterator<Item = [u8; RECORD]> {
    let starts = move |kind, b| {
        words
            .clone()
            .map(move |word| record(kind, b, flag_word(word)))
    };
    let kinds = move |b| [(2, b), (3, b)];
    (0..screens)
        .flat_map(kinds)
        .flat_map(move |(kind, b)| starts(kind, b))
}

/// The session that one record's call leaves.
fn session_after(table: &Table, session: &Session, call: &[u8; RECORD]) -> Session {
    let mut player = Player {
        table: Ok(table.clone()),
        session: session.clone(),
    };
    player.record(call);
    player.session
}
