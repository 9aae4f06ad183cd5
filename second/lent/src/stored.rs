//! Sessions as the static library stores them, and as the second navigator
//! does: both ways.

use std::mem;

use second::edition::EIGHT;
use second::session::{MAX_HEIGHT, MAX_TASKS};
use second::{Screen, Session, Task};

/// How many bytes a stored task and a stored session are.
pub const TASK: usize = 2 + MAX_HEIGHT;
pub const SESSION: usize = MAX_TASKS * TASK + 4;

/// A task: its screens are stored bottom first.
#[repr(C)]
#[derive(Clone, Copy, PartialEq)]
pub struct StoredTask {
    pub screens: [u8; MAX_HEIGHT],
    pub root: u8,
    pub height: u8,
}

/// A session: tasks, front first.
#[repr(C)]
#[derive(Clone, Copy, PartialEq)]
pub struct Stored {
    pub tasks: [StoredTask; MAX_TASKS],
    pub n: u8,
    pub main: u8,
    pub edition: u8,
    /// 1 if the front screen is a No-History one.
    pub no_history: u8,
}

const BLANK: StoredTask = StoredTask {
    screens: [0; MAX_HEIGHT],
    root: 0,
    height: 0,
};

impl Stored {
    pub const FRESH: Stored = Stored {
        tasks: [BLANK; MAX_TASKS],
        n: 0,
        main: 0,
        edition: EIGHT,
        no_history: 0,
    };

    /// The session with zeros in what it does not use. `None` if there is no
    /// room for it.
    pub fn hold(session: &Session) -> Option<Stored> {
        let mut stored = Stored::FRESH;
        for (i, task) in session.tasks.iter().enumerate() {
            let place = stored.tasks.get_mut(i)?;
            let screens = place.screens.get_mut(..task.height())?;
            for (to, from) in screens.iter_mut().zip(&task.screens) {
                *to = from.number;
            }
            place.root = task.root;
            place.height = task.height() as u8;
        }
        stored.n = session.tasks.len() as u8;
        stored.main = u8::try_from(session.main).ok()?;
        stored.edition = session.edition;
        stored.no_history = u8::from(session.no_history);
        Some(stored)
    }

    /// The session that is stored. Where storage is not used as it must be, a
    /// session that is sound under no table.
    pub fn view(&self) -> Session {
        let session = Session {
            tasks: self.used().iter().map(StoredTask::view).collect(),
            main: usize::from(self.main),
            edition: self.edition,
            no_history: self.no_history == 1,
        };
        if Stored::hold(&session).as_ref() == Some(self) {
            session
        } else {
            Session {
                main: usize::MAX,
                ..Session::fresh()
            }
        }
    }

    /// The tasks up to n, or all.
    fn used(&self) -> &[StoredTask] {
        &self.tasks[..MAX_TASKS.min(usize::from(self.n))]
    }

    pub fn bytes(&self) -> [u8; SESSION] {
        // Both types are SESSION bytes with none between them.
        unsafe { mem::transmute(*self) }
    }

    /// These bytes as the session that they are.
    pub fn lent(bytes: &mut [u8]) -> &mut Stored {
        assert!(bytes.len() == SESSION, "a session's bytes");
        // As many bytes as a session is, and any are one; both want no
        // alignment.
        unsafe { &mut *bytes.as_mut_ptr().cast() }
    }

    pub fn from_bytes(bytes: [u8; SESSION]) -> Stored {
        // Any bytes are a stored session.
        unsafe { mem::transmute(bytes) }
    }
}

impl StoredTask {
    fn view(&self) -> Task {
        let height = MAX_HEIGHT.min(usize::from(self.height));
        Task {
            root: self.root,
            screens: self.screens[..height]
                .iter()
                .map(|&number| Screen::new(number))
                .collect(),
        }
    }
}
