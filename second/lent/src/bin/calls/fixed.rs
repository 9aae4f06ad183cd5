//! The calls that are made for every seed.

use second::edition::{EDITIONS, EIGHT, SEVEN, SIX};
use second::session::{MAX_HEIGHT, MAX_TASKS};
use second::table::{
    flag_word, ALL_FLAGS, CLEAR_TASK, CLEAR_TOP, FLAG_WORDS, NEW_TASK, NO_HISTORY, REORDER_TO_FRONT,
};
use second::{Session, Task};

use lent_calls::call::Call;
use lent_calls::check::{Checked, Checker};
use lent_calls::damage::EXTREMES;
use lent_calls::sessions::{both_fronts, held, Listed, T};
use lent_calls::stored::{Stored, SESSION};

use crate::fields::{Field, Refused};

/// Sessions of an edition, sound under T: small, typical, full.
fn sized(edition: u8) -> [Session; 3] {
    let small = Session {
        tasks: vec![Task::new(3, &[3]), Task::new(0, &[1, 0])],
        main: 2,
        edition,
        no_history: false,
    };
    let typical = Session {
        tasks: vec![
            Task::new(5, &[1, 5, 2, 0, 1, 5]),
            Task::new(4, &[4]),
            Task::new(3, &[2, 1, 3]),
            Task::new(0, &[1, 0, 2, 2, 1, 0]),
        ],
        main: 4,
        edition,
        no_history: false,
    };
    let screens: Vec<u8> = (0..MAX_HEIGHT).map(|at| at as u8 % 3).collect();
    let full = Session {
        tasks: vec![Task::new(0, &screens); MAX_TASKS],
        main: MAX_TASKS,
        edition,
        no_history: false,
    };
    [small, typical, full]
}

/// The empty session, and one of each size, each of another edition; one of them has
/// a No-History front.
fn sound() -> [Session; 4] {
    let ([small, ..], [_, typical, _], [.., full]) = (sized(SIX), sized(SEVEN), sized(EIGHT));
    let [_, typical] = both_fronts(typical);
    [Session::fresh(), small, typical, full]
}

/// The empty session, and one of each size, edition and front.
fn all_sound() -> Vec<Session> {
    let mut sessions = vec![Session::fresh()];
    sessions.extend(EDITIONS.into_iter().flat_map(sized).flat_map(both_fronts));
    sessions
}

/// One call of each kind.
fn one_of_each(image: &[u8]) -> [Call<'_>; 8] {
    let (screen, flags) = (1, 0);
    let length = image.len();
    [
        Call::Launch { edition: 0 },
        Call::Start { screen, flags },
        Call::FinishingStart { screen, flags },
        Call::Back,
        Call::Look,
        Call::Save { length },
        Call::Restore { image },
        Call::Why { screen, flags },
    ]
}

/// Sessions with each byte set to values at the limits and with each of its bits
/// turned, and every call on them.
pub fn sessions(checker: &mut Checker) -> Checked {
    let table = Listed::new(T.to_vec()).table;
    let mut refused = Refused::default();
    for session in sound() {
        checker.counts.add_session(&session);
        let image = session.image();
        let right = held(&session);
        for place in 0..SESSION {
            let mut bytes = right.bytes();
            let byte = bytes[place];
            let turned = (0..8).map(|bit| byte ^ 1 << bit);
            for value in EXTREMES.into_iter().chain(turned) {
                bytes[place] = value;
                let bad = Stored::from_bytes(bytes);
                let unsound = !bad.view().is_sound(&table);
                for call in one_of_each(&image) {
                    checker.check("one byte of a session", &T, &bad, call)?;
                    if unsound {
                        refused.add(Field::at(&right, place), call.kind());
                    }
                }
            }
        }
    }
    print!("{refused}");
    assert!(refused.whole(), "each field makes each call refuse");
    Ok(())
}

/// Tables with each byte set to each other value, and of each length.
pub fn tables(checker: &mut Checker) -> Checked {
    for session in sound() {
        let image = session.image();
        let present = held(&session);
        let mut check = |what, table: &[u8]| -> Checked {
            for call in one_of_each(&image) {
                checker.check(what, table, &present, call)?;
            }
            Ok(())
        };
        for place in 0..T.len() {
            let mut table = T;
            for other in 1..=255 {
                table[place] = T[place].wrapping_add(other);
                check("one byte of a table", &table)?;
            }
        }
        for n in [0, 1, 5, 6, 7, 63, 64, 65, 127, 128, 255] {
            for length in (0..=140).chain([2 + 2 * usize::from(n)]) {
                let mut table = T.to_vec();
                table.resize(length, 0);
                if let Some(first) = table.first_mut() {
                    *first = n;
                }
                check("the length of a table", &table)?;
            }
        }
    }
    Ok(())
}

/// T with affinity 0 for every screen.
pub fn no_affinities() -> [u8; 14] {
    let mut table = T;
    for screen in 0..6 {
        table[3 + 2 * screen] = 0;
    }
    table
}

/// Starts and finishing starts of every screen, with every flag bit and with
/// every set of the seven flags, and why of each, under a table with T's modes.
pub fn starts(checker: &mut Checker, table: &[u8]) -> Checked {
    for session in all_sound() {
        let present = held(&session);
        let mut check = |what, screen, flags| -> Checked {
            let start = Call::Start { screen, flags };
            let finishing = Call::FinishingStart { screen, flags };
            checker.check(what, table, &present, start)?;
            checker.check(what, table, &present, finishing)?;
            checker.check(what, table, &present, Call::Why { screen, flags })?;
            Ok(())
        };
        for screen in 0..=255 {
            check("every screen", screen, 0)?;
            check("every screen", screen, ALL_FLAGS)?;
            check("every screen", screen, 1)?;
        }
        for screen in 0..T[0] {
            for bit in 0..32 {
                check("every flag bit", screen, 1 << bit)?;
                check("every flag bit", screen, ALL_FLAGS | 1 << bit)?;
            }
            for set in 0..FLAG_WORDS {
                check("every set of flags", screen, flag_word(set))?;
            }
        }
    }
    Ok(())
}

/// Sessions with every byte for an edition and every call on them, and launches
/// with every edition byte.
pub fn editions(checker: &mut Checker) -> Checked {
    for session in all_sound() {
        let image = session.image();
        for edition in 0..=255 {
            let mut held = held(&session);
            let launch = Call::Launch { edition };
            checker.check("every edition byte", &T, &held, launch)?;
            held.edition = edition;
            for call in one_of_each(&image) {
                checker.check("every edition held", &T, &held, call)?;
            }
        }
    }
    Ok(())
}

/// Sessions with every byte for the mark of a No-History front, and every call on
/// them; and every m byte for their images, over them.
pub fn marks(checker: &mut Checker) -> Checked {
    for session in all_sound() {
        let mut image = session.image();
        let m = image.len() - 3;
        for byte in 0..=255 {
            let mut held = held(&session);
            image[m] = byte;
            let restore = Call::Restore { image: &image };
            checker.check("every m byte", &T, &held, restore)?;
            held.no_history = byte;
            for call in one_of_each(&session.image()) {
                checker.check("every mark held", &T, &held, call)?;
            }
        }
    }
    Ok(())
}

/// Small sessions of an edition, alone in front or before the main task, so that a
/// start of the front screen itself can leave a task or none.
fn small(edition: u8) -> Vec<Session> {
    let stacks: [(u8, &[u8]); 8] = [
        (0, &[0]),
        (0, &[1, 0]),
        (1, &[1]),
        (3, &[3]),
        (3, &[3, 1]),
        (4, &[4]),
        (5, &[5]),
        (5, &[5, 1, 5]),
    ];
    let mut sessions = Vec::new();
    for (root, screens) in stacks {
        let front = Task::new(root, screens);
        let session = |tasks, main| Session {
            tasks,
            main,
            edition,
            no_history: false,
        };
        let main = usize::from(root == T[1]);
        sessions.push(session(vec![front.clone()], main));
        sessions.push(session(vec![front, Task::new(0, &[0])], 2));
    }
    sessions
}

/// Starts and finishing starts of every screen with every set of flags, and why of
/// each, from small sessions with a No-History front and with another.
pub fn fronts(checker: &mut Checker) -> Checked {
    let sessions = EDITIONS.into_iter().flat_map(small).flat_map(both_fronts);
    for present in sessions.map(|session| held(&session)) {
        for screen in 0..T[0] {
            for flags in (0..FLAG_WORDS).map(flag_word) {
                for call in [
                    Call::Start { screen, flags },
                    Call::FinishingStart { screen, flags },
                    Call::Why { screen, flags },
                ] {
                    checker.check("small sessions", &T, &present, call)?;
                }
            }
        }
    }
    Ok(())
}

/// Sessions with a task of this height whose root, at the bottom, is this screen,
/// in front and behind another; it is the main task if that is the main screen. Of
/// each there is one with a No-History front.
fn high(edition: u8, screen: u8, height: usize) -> impl Iterator<Item = Session> {
    // 0 is the main screen; 3, single-task, and 5 have another affinity.
    let is_main = screen == T[1];
    let root = if is_main { 5 } else { T[1] };
    let other = Task::new(root, &[root]);
    let mut screens = vec![1; height];
    screens[height - 1] = screen;
    let high = Task::new(screen, &screens);
    let session = |tasks, place| Session {
        tasks,
        main: if is_main { place } else { 0 },
        edition,
        no_history: false,
    };
    let sessions = [
        session(vec![high.clone(), other.clone()], 1),
        session(vec![other, high], 2),
    ];
    sessions.into_iter().flat_map(both_fronts)
}

/// Tasks of each height, cleared, emptied and reordered by starts of their root
/// from inside and from another task, so that each number of screens closes that a
/// rule can close.
pub fn heights(checker: &mut Checker) -> Checked {
    let words = [
        CLEAR_TOP,
        NEW_TASK | CLEAR_TOP,
        NEW_TASK | CLEAR_TASK,
        REORDER_TO_FRONT,
    ];
    for (edition, height) in EDITIONS
        .into_iter()
        .flat_map(|edition| (1..=MAX_HEIGHT).map(move |height| (edition, height)))
    {
        for screen in [0, 3, 5] {
            for session in high(edition, screen, height) {
                let present = held(&session);
                for flags in words.into_iter().flat_map(|word| [word, word | NO_HISTORY]) {
                    let start = Call::Start { screen, flags };
                    let finishing = Call::FinishingStart { screen, flags };
                    checker.check("tasks of each height", &T, &present, start)?;
                    checker.check("tasks of each height", &T, &present, finishing)?;
                    let why = Call::Why { screen, flags };
                    checker.check("tasks of each height", &T, &present, why)?;
                }
            }
        }
    }
    Ok(())
}
