//! How often calls were made on a session with a No-History front, and how often
//! stored marks and those of images were good and bad.

use std::fmt;

use second::cases::{Case, Cases};
use second::no_history::{self, NoHistory, Start, BY_FINISHING_START, BY_START};
use second::rules::Choice;
use second::session::MAX_TASKS;
use second::{Reason, Table};

use crate::call::{Call, Kind, Reply};
use crate::counts::possible;
use crate::stored::{Stored, TASK};

/// The kinds that have rules.
const STARTS: [Kind; 3] = [Kind::Start, Kind::FinishingStart, Kind::Why];
/// The length of the longest body of an image.
const LONGEST_BODY: usize = MAX_TASKS * TASK;
/// The bit of the m byte.
const MARK: u8 = 0x80;

/// What there is to see of marks in a call.
struct Seen {
    refusal: u8,
    /// The byte that is stored, and how many tasks.
    held: u8,
    tasks: u8,
    /// Whether the session is refused for that byte alone.
    held_wrong: bool,
    /// Of a restore: the m byte of an image whose body is this long.
    image: Option<(u8, usize)>,
    /// The mark that an accepted restore brings.
    restored: Option<u8>,
    saved: bool,
}

/// What is to come up where sessions are damaged.
const HELD: [Case<Seen>; 2] = [
    ("20 for a mark above 1", |seen| {
        seen.held_wrong && seen.held > 1
    }),
    ("20 for a mark without a task", |seen| {
        seen.held_wrong && seen.held == 1 && seen.tasks == 0
    }),
];

/// What is to come up in saves and restores.
const IMAGES: [Case<Seen>; 9] = [
    ("a No-History front saved", |seen| {
        seen.saved && seen.held == 1
    }),
    ("restored over another", |seen| {
        seen.restored == Some(1) && seen.held == 0
    }),
    ("restored over one", |seen| {
        seen.restored == Some(1) && seen.held == 1
    }),
    ("restored with the most screens", |seen| {
        seen.restored == Some(1) && matches!(seen.image, Some((_, LONGEST_BODY)))
    }),
    ("restored with m 0", |seen| {
        seen.restored == Some(1) && matches!(seen.image, Some((MARK, _)))
    }),
    ("another restored over one", |seen| {
        seen.restored == Some(0) && seen.held == 1
    }),
    ("7 for a mark on an empty image", |seen| {
        seen.refusal == 7 && seen.image == Some((MARK, 0))
    }),
    ("7 for an m byte of 127", |seen| {
        seen.refusal == 7 && matches!(seen.image, Some((127, 1..)))
    }),
    ("7 for an m byte of 255", |seen| {
        seen.refusal == 7 && matches!(seen.image, Some((255, 1..)))
    }),
];

pub struct Fronts {
    /// Calls on a session that has such a front, by kind and refusal.
    calls: [[u64; 31]; 8],
    /// Accepted starts, finishing starts and reasons.
    starts: [NoHistory; 3],
    held: Cases<Seen>,
    images: Cases<Seen>,
}

impl Default for Fronts {
    fn default() -> Fronts {
        Fronts {
            calls: [[0; 31]; 8],
            starts: [BY_START, BY_FINISHING_START, &[]].map(NoHistory::new),
            held: Cases::new(&HELD),
            images: Cases::new(&IMAGES),
        }
    }
}

impl Fronts {
    /// Counts a call by what the second navigator gave.
    pub fn add(&mut self, table: &[u8], present: &Stored, call: Call, reply: &Reply) {
        let (kind, refusal) = (call.kind() as usize, reply.refusal());
        if present.no_history == 1 && present.n > 0 {
            self.calls[kind][usize::from(refusal)] += 1;
        }
        let seen = seen(table, present, call, reply);
        self.held.add(&seen);
        self.images.add(&seen);
    }

    /// Counts an accepted start, or the reason of one, that chose this.
    pub fn add_start(&mut self, present: &Stored, call: Call, reply: &Reply, choice: Choice) {
        let (Call::Start { screen, flags }
        | Call::FinishingStart { screen, flags }
        | Call::Why { screen, flags }) = call
        else {
            return;
        };
        let place = STARTS.iter().position(|&kind| kind == call.kind());
        let starts = &mut self.starts[place.expect("it is one of the three")];
        let Reason { rule, place, .. } = Reason::chosen(choice);
        starts.add(&Start {
            rule,
            flags,
            no_history: present.no_history == 1,
            edition: present.edition,
            main: present.main,
        });
        if let Reply::Answer([_, _, _, _, tasks, ..]) = *reply {
            let front = &present.tasks[0];
            let itself = front.screens[usize::from(front.height) - 1] == screen;
            if present.no_history == 1 && itself && place <= 1 {
                starts.add_itself(rule, tasks == 0);
            }
        }
    }

    /// The names of what never came up in calls of these kinds.
    pub fn missing(&self, kinds: &[Kind]) -> Vec<String> {
        let mut names = Vec::new();
        for &kind in kinds {
            for &refusal in possible(kind)
                .iter()
                .filter(|&&refusal| can_be(kind, refusal))
            {
                if self.calls[kind as usize][usize::from(refusal)] == 0 {
                    let name = kind.name();
                    names.push(format!("{refusal} by {name} on a No-History front"));
                }
            }
        }
        for (kind, starts) in STARTS.iter().zip(&self.starts) {
            if kinds.contains(kind) {
                names.extend(starts.missing(kind.name()));
            }
        }
        names.extend(self.held.missing());
        if kinds.contains(&Kind::Restore) {
            names.extend(self.images.missing());
        }
        names
    }

    /// Writes what came up in calls of these kinds.
    pub fn write(&self, f: &mut fmt::Formatter, kinds: &[Kind]) -> fmt::Result {
        write!(f, "on a No-History front:")?;
        for &kind in kinds {
            let calls = &self.calls[kind as usize];
            let refused: u64 = calls[1..].iter().sum();
            write!(f, " {} {} ({refused} refused)", kind.name(), calls[0])?;
        }
        writeln!(f)?;
        let starts = STARTS.iter().zip(&self.starts);
        let columns: Vec<_> = starts
            .filter(|(kind, _)| kinds.contains(kind))
            .map(|(kind, starts)| (kind.name(), starts))
            .collect();
        if !columns.is_empty() {
            no_history::write(f, &columns)?;
        }
        write!(f, "{}{}", self.held, self.images)
    }
}

/// Whether a call on a session with such a front, which is not empty, can be refused
/// so, or accepted where this is 0.
fn can_be(kind: Kind, refusal: u8) -> bool {
    match refusal {
        0 => kind != Kind::Launch,
        21 | 30 => false,
        _ => true,
    }
}

fn seen(table: &[u8], present: &Stored, call: Call, reply: &Reply) -> Seen {
    let refusal = reply.refusal();
    let image = match call {
        // The body, L in two bytes, n and then the m byte.
        Call::Restore { image } if image.len() >= 6 => {
            let body = image.len() - 6;
            Some((image[body + 3], body))
        }
        _ => None,
    };
    let restored = match (call, reply) {
        (Call::Restore { .. }, Reply::Answer([0, .., mark])) => Some(*mark),
        _ => None,
    };
    Seen {
        refusal,
        held: present.no_history,
        tasks: present.n,
        held_wrong: refusal == 20 && present.no_history > 0 && is_sound_without(table, present),
        image,
        restored,
        saved: matches!(reply, Reply::Saved(0, _)),
    }
}

/// Whether a session is sound without its mark.
fn is_sound_without(table: &[u8], present: &Stored) -> bool {
    let table = Table::parse(table).expect("the call was past the table's check");
    let without = Stored {
        no_history: 0,
        ..*present
    };
    without.view().is_sound(&table)
}
