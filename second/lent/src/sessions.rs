//! Random sessions that are sound under a table.

use second::edition::EDITIONS;
use second::random::Random;
use second::session::{MAX_HEIGHT, MAX_TASKS};
use second::table::ALL_FLAGS;
use second::{Session, Table, Task};

use crate::stored::Stored;

/// The table of the paper's examples.
pub const T: [u8; 14] = [6, 0, 0, 1, 0, 1, 1, 1, 2, 2, 3, 1, 0, 2];

/// A sound session as it is stored.
pub fn held(session: &Session) -> Stored {
    Stored::hold(session).expect("a sound session can be stored")
}

/// A session that is not empty, and the same with a No-History front.
pub fn both_fronts(session: Session) -> [Session; 2] {
    let front = Session {
        no_history: true,
        ..session.clone()
    };
    [session, front]
}

/// A table, good, with its bytes and its number of screens.
pub struct Listed {
    pub bytes: Vec<u8>,
    pub table: Table,
    pub screens: u8,
}

impl Listed {
    pub fn new(bytes: Vec<u8>) -> Listed {
        Listed {
            table: Table::parse(&bytes).expect("the table is good"),
            screens: bytes[0],
            bytes,
        }
    }

    pub fn random(random: &mut Random) -> Listed {
        let screens = match random.below(4) {
            0 => random.between(1, 3),
            1 => random.between(4, 9),
            2 => random.between(1, 64),
            _ => random.one_of(&[63, 64]),
        };
        let affinities = random.one_of(&[1, 1, 2, 255]);
        let modes = random.one_of(&[[1, 1, 1, 1], [4, 2, 2, 1], [1, 0, 3, 3], [1, 1, 0, 0]]);
        Listed::new(random.table(screens as u8, affinities, &modes))
    }
}

/// A sound session: small, of any size, as full as the table lets it be, or
/// one that calls lead to.
pub fn sound(random: &mut Random, listed: &Listed) -> Session {
    match random.below(4) {
        0 => {
            let tasks = random.between(0, 3);
            built(random, listed, tasks as usize, 1, 3)
        }
        1 => {
            let tasks = random.between(0, MAX_TASKS as u64);
            built(random, listed, tasks as usize, 1, MAX_HEIGHT)
        }
        2 => built(random, listed, MAX_TASKS, MAX_HEIGHT, MAX_HEIGHT),
        _ => played(random, listed),
    }
}

/// A session of any edition and up to these many tasks, with heights between these two
/// where the root is not single-instance, and a No-History front or another.
pub fn built(
    random: &mut Random,
    listed: &Listed,
    tasks: usize,
    low: usize,
    high: usize,
) -> Session {
    let table = &listed.table;
    let mut roots: Vec<u8> = (0..listed.screens).collect();
    let shared: Vec<u8> = (0..listed.screens)
        .filter(|&screen| !table.is_single_instance(screen))
        .collect();
    let mut session = Session::fresh();
    while session.tasks.len() < tasks && !roots.is_empty() {
        let root = random.one_of(&roots);
        if may_root_once(listed, root) {
            roots.retain(|&other| other != root);
        }
        let screens: Vec<u8> = if table.is_single_instance(root) {
            vec![root]
        } else {
            let height = random.between(low as u64, high as u64);
            (0..height).map(|_| random.one_of(&shared)).collect()
        };
        session.tasks.push(Task::new(root, &screens));
    }
    let places: Vec<usize> = (0..=session.tasks.len())
        .filter(|&place| place == 0 || session.tasks[place - 1].root == table.main())
        .collect();
    session.main = random.one_of(&places);
    if !session.is_empty() {
        session.edition = random.one_of(&EDITIONS);
        session.no_history = random.percent(50);
    }
    session
}

/// Whether this screen, single-task or single-instance, can be root only once.
pub fn may_root_once(listed: &Listed, screen: u8) -> bool {
    listed.bytes[2 + 2 * usize::from(screen)] >= 2
}

/// A session after random calls.
fn played(random: &mut Random, listed: &Listed) -> Session {
    let table = &listed.table;
    let mut session = Session::fresh();
    for _ in 0..random.between(1, 120) {
        let screen = random.byte(u16::from(listed.screens));
        let flags = random.next() as u32 & ALL_FLAGS;
        let kind = random.below(10);
        // A refused call leaves the session, which is as good.
        let _ = match kind {
            _ if session.is_empty() => session.launch(table, random.edition_byte()),
            0 => session.back(),
            1 => session.finishing_start(table, screen, flags),
            2..=5 => session.start(table, screen, 0),
            _ => session.start(table, screen, flags),
        };
    }
    session
}
