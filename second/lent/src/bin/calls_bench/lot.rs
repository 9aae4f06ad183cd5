//! A lot of calls of one kind on sessions of one size.

use std::hint::black_box;

use second::session::{MAX_HEIGHT, MAX_TASKS};
use second::table::flag_word;
use second::{calls, Session};

use lent_calls::call::{by_library, on_session, Call, Kind, Reply};
use lent_calls::sessions::{held, T};
use lent_calls::sizes::Size;
use lent_calls::stored::Stored;

use crate::by_value;

/// The calls that are measured. Launch is left out: it has but one session. Why
/// is left out: it is a start's choice.
pub const KINDS: [Kind; 6] = [
    Kind::Start,
    Kind::FinishingStart,
    Kind::Back,
    Kind::Look,
    Kind::Save,
    Kind::Restore,
];

/// How many calls a lot is.
pub const CALLS: usize = 64;
const BUFFER: usize = 600;

pub struct Lot {
    kind: Kind,
    session: Session,
    /// Screens and flag words of accepted starts.
    starts: Vec<(u8, u32)>,
    image: Vec<u8>,
}

impl Lot {
    pub fn new(kind: Kind, size: Size) -> Lot {
        let session = size.session();
        let accepted = accepted_starts(&session);
        let starts = (0..CALLS)
            .map(|i| accepted[i * accepted.len() / CALLS])
            .collect();
        let image = session.image();
        Lot {
            kind,
            session,
            starts,
            image,
        }
    }

    /// The call at this place of the lot.
    fn call(&self, place: usize) -> Call<'_> {
        let (screen, flags) = self.starts[place];
        match self.kind {
            Kind::Launch => Call::Launch { edition: 0 },
            Kind::Start => Call::Start { screen, flags },
            Kind::FinishingStart => Call::FinishingStart { screen, flags },
            Kind::Back => Call::Back,
            Kind::Look => Call::Look,
            Kind::Save => Call::Save { length: BUFFER },
            Kind::Restore => Call::Restore { image: &self.image },
            Kind::Why => Call::Why { screen, flags },
        }
    }

    /// That plain Rust by value gives what the library gives, call by call.
    pub fn check_by_value(&self) {
        let mut buffer = [0; BUFFER];
        for place in 0..CALLS {
            let (mut ours, mut theirs) = (held(&self.session), held(&self.session));
            let reply = by_library(self.call(place), &T, &mut ours, &mut buffer);
            let answer = made_by_value(self.call(place), &mut theirs);
            let same = reply == Reply::Answer(answer) && ours.bytes() == theirs.bytes();
            assert!(same, "by value: {} differs", self.call(place));
        }
    }

    /// Whether the call is there in plain Rust by value.
    pub fn is_by_value(&self) -> bool {
        !matches!(self.kind, Kind::Save | Kind::Restore | Kind::Why)
    }

    /// The sessions of the library's calls.
    pub fn for_library(&self) -> Vec<Stored> {
        vec![held(&self.session); CALLS]
    }

    /// The sessions of the second navigator's calls, with room for any push.
    pub fn for_second(&self) -> Vec<Session> {
        let with_room = |_| {
            let mut session = self.session.clone();
            session.tasks.reserve_exact(MAX_TASKS);
            for task in &mut session.tasks {
                task.screens.reserve_exact(MAX_HEIGHT);
            }
            session
        };
        (0..CALLS).map(with_room).collect()
    }
}

/// Of each screen with each set of the six flags that choose rules, those that are
/// accepted.
fn accepted_starts(session: &Session) -> Vec<(u8, u32)> {
    let sets = (0..64).map(flag_word);
    sets.flat_map(|flags| (0..T[0]).map(move |screen| (screen, flags)))
        .filter(|&(screen, flags)| calls::why(&T, session, screen, flags).refusal == 0)
        .collect()
}

#[inline(never)]
pub fn measured_lent(lot: &Lot, sessions: &mut [Stored]) {
    let mut buffer = [0; BUFFER];
    for (place, session) in sessions.iter_mut().enumerate() {
        black_box(by_library(lot.call(place), &T, session, &mut buffer));
    }
    black_box(buffer);
}

#[inline(never)]
pub fn measured_second(lot: &Lot, sessions: &mut [Session]) {
    let mut buffer = [0; BUFFER];
    for (place, session) in sessions.iter_mut().enumerate() {
        black_box(on_session(lot.call(place), &T, session, &mut buffer));
    }
    black_box(buffer);
}

fn made_by_value(call: Call, session: &mut Stored) -> [u8; 9] {
    match call {
        Call::Start { screen, flags } => by_value::start(&T, session, screen, flags),
        Call::FinishingStart { screen, flags } => {
            by_value::finishing_start(&T, session, screen, flags)
        }
        Call::Back => by_value::back(&T, session),
        _ => by_value::look(&T, session),
    }
}

#[inline(never)]
pub fn measured_by_value(lot: &Lot, sessions: &mut [Stored]) {
    for (place, session) in sessions.iter_mut().enumerate() {
        black_box(made_by_value(lot.call(place), session));
    }
}

#[inline(never)]
pub fn measured_copy(from: &[Stored], to: &mut [Stored]) {
    for (from, to) in from.iter().zip(to) {
        *to = *black_box(from);
        black_box(to);
    }
}
