//! The comparison finds wrong charts and wrong starts by them: in the static library's
//! place stands the second navigator, as it is or with one thing wrong.

use second::chart;
use second::table::{CLEAR_TASK, CLEAR_TOP, MULTIPLE_TASK, NEW_TASK, REORDER_TO_FRONT, SINGLE_TOP};
use second::{Mode, Table};

use lent_calls::stored::Stored;

use crate::check::{start, Asked, Checker};
use crate::library::Library;

/// A stand-in: how it changes an entry, and how it changes a start with its mode of B,
/// or gives something else.
struct StandIn {
    entry: fn(u16, u8) -> u8,
    start: fn(Mode, &mut Asked),
    after: fn(&Asked, &mut [u8; 9], &mut Stored),
}

const RIGHT: StandIn = StandIn {
    entry: |_, entry| entry,
    start: |_, _| (),
    after: |_, _, _| (),
};

impl StandIn {
    fn make(&self, mut asked: Asked, session: &mut Stored) -> [u8; 9] {
        let table = Table::parse(&asked.table);
        if let Some(table) = table.ok().filter(|table| table.has(asked.screen)) {
            (self.start)(table.mode(asked.screen), &mut asked);
        }
        let (mut answer, mut after) = start(&asked);
        (self.after)(&asked, &mut answer, &mut after);
        *session = after;
        answer
    }
}

impl Library for StandIn {
    fn chart(&self, index: u16) -> u8 {
        let entry = chart::entry(index).unwrap_or(0);
        (self.entry)(index, entry)
    }

    fn start(&self, table: &[u8], session: &mut Stored, screen: u8, flags: u32) -> [u8; 9] {
        let asked = Asked {
            table: table.to_vec(),
            session: *session,
            finishing: false,
            screen,
            flags,
        };
        self.make(asked, session)
    }

    fn finish_start(&self, table: &[u8], session: &mut Stored, screen: u8, flags: u32) -> [u8; 9] {
        let asked = Asked {
            table: table.to_vec(),
            session: *session,
            finishing: true,
            screen,
            flags,
        };
        self.make(asked, session)
    }
}

/// What the comparison says of a stand-in.
fn found(stand_in: StandIn, seed: u64) -> Option<String> {
    let mut checker = Checker::new(stand_in);
    let found = crate::compare(&mut checker, seed, 100_000);
    found.err().map(|difference| difference.to_string())
}

#[test]
fn nothing_is_found_where_nothing_is_wrong_and_every_entry_is_reached() {
    let mut checker = Checker::new(RIGHT);
    assert!(crate::compare(&mut checker, 1, 1_000_000).is_ok());
    assert_eq!(checker.counts.missing(), Vec::<String>::new());
}

#[test]
fn wrong_entries_are_found() {
    let wrong: [fn(u16, u8) -> u8; 6] = [
        |index, entry| entry + u8::from(index == 0),
        |index, entry| entry ^ u8::from(index == 511),
        |index, entry| if index == 512 { 1 } else { entry },
        |index, entry| if index == u16::MAX { 1 } else { entry },
        |_, entry| if entry == 21 { 5 } else { entry },
        |_, entry| if entry == 75 { 11 } else { entry },
    ];
    for (number, entry) in wrong.into_iter().enumerate() {
        let said = found(StandIn { entry, ..RIGHT }, 2);
        let said = said.unwrap_or_else(|| panic!("wrong entry {number} is not found"));
        assert!(said.starts_with("difference, found in: entries"), "{said}");
    }
}

/// The flags with these two swapped.
fn swapped(flags: u32, one: u32, other: u32) -> u32 {
    let both = flags & (one | other);
    if both == one || both == other {
        flags ^ (one | other)
    } else {
        flags
    }
}

#[test]
fn wrong_starts_are_found() {
    let wrong: [fn(Mode, &mut Asked); 9] = [
        // Two flags swapped.
        |_, asked| asked.flags = swapped(asked.flags, CLEAR_TOP, REORDER_TO_FRONT),
        |_, asked| asked.flags = swapped(asked.flags, NEW_TASK, SINGLE_TOP),
        |_, asked| asked.flags = swapped(asked.flags, MULTIPLE_TASK, CLEAR_TASK),
        // 16 read as 8, 64 not read, 32 not read for a single-task screen.
        |_, asked| asked.flags = swapped(asked.flags, CLEAR_TOP, SINGLE_TOP),
        |_, asked| asked.flags &= !REORDER_TO_FRONT,
        |mode, asked| {
            if mode == Mode::SingleTask {
                asked.flags &= !CLEAR_TASK;
            }
        },
        // In one edition alone, of one kind alone, from such a front alone.
        |_, asked| {
            if asked.session.edition == 6 && asked.session.n > 0 {
                asked.session.edition = 8;
            }
        },
        |_, asked| asked.finishing = false,
        |_, asked| {
            if asked.session.no_history == 1 && asked.flags & CLEAR_TASK != 0 {
                asked.flags |= MULTIPLE_TASK;
            }
        },
    ];
    for (number, start) in wrong.into_iter().enumerate() {
        let said = found(StandIn { start, ..RIGHT }, 3);
        let said = said.unwrap_or_else(|| panic!("wrong start {number} is not found"));
        assert!(said.starts_with("difference, found in: "), "{said}");
    }
}

#[test]
fn wrong_sessions_and_answers_are_found() {
    let wrong: [fn(&Asked, &mut [u8; 9], &mut Stored); 4] = [
        |_, answer, _| answer[6] += u8::from(answer[6] == 33),
        |_, answer, session| {
            if answer[0] == 23 {
                *session = Stored::FRESH;
            }
        },
        |asked, _, session| session.tasks[15].root = asked.session.tasks[15].root,
        |asked, answer, session| {
            if answer[0] == 0 {
                session.no_history = asked.session.no_history;
            }
        },
    ];
    for (number, after) in wrong.into_iter().enumerate() {
        let mut checker = Checker::new(StandIn { after, ..RIGHT });
        let found = crate::compare(&mut checker, 4, 400_000);
        assert!(
            found.is_err(),
            "wrong session or answer {number} is not found"
        );
    }
}
