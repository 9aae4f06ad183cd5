//! A call with its arguments, made by the static library or by the second
//! navigator, and all that it gives.

use std::fmt;

use second::calls;
use second::hex::hex;
use second::Session;

use crate::library;
use crate::stored::{Stored, TASK};

/// The calls by name.
#[derive(Clone, Copy, Debug, PartialEq)]
pub enum Kind {
    Launch,
    Start,
    FinishingStart,
    Back,
    Look,
    Save,
    Restore,
    Why,
}

impl Kind {
    pub const ALL: [Kind; 8] = [
        Kind::Launch,
        Kind::Start,
        Kind::FinishingStart,
        Kind::Back,
        Kind::Look,
        Kind::Save,
        Kind::Restore,
        Kind::Why,
    ];

    pub fn name(self) -> &'static str {
        match self {
            Kind::Launch => "launch",
            Kind::Start => "start",
            Kind::FinishingStart => "finishing start",
            Kind::Back => "Back",
            Kind::Look => "look",
            Kind::Save => "save",
            Kind::Restore => "restore",
            Kind::Why => "why",
        }
    }

    /// Whether the call gives an answer; save and why give something else.
    pub fn has_answer(self) -> bool {
        !matches!(self, Kind::Save | Kind::Why)
    }
}

/// A call with its arguments, apart from the table and the session.
#[derive(Clone, Copy)]
pub enum Call<'a> {
    Launch {
        edition: u8,
    },
    Start {
        screen: u8,
        flags: u32,
    },
    FinishingStart {
        screen: u8,
        flags: u32,
    },
    Back,
    Look,
    /// Into a buffer of this length.
    Save {
        length: usize,
    },
    Restore {
        image: &'a [u8],
    },
    Why {
        screen: u8,
        flags: u32,
    },
}

impl Call<'_> {
    pub fn kind(&self) -> Kind {
        match self {
            Call::Launch { .. } => Kind::Launch,
            Call::Start { .. } => Kind::Start,
            Call::FinishingStart { .. } => Kind::FinishingStart,
            Call::Back => Kind::Back,
            Call::Look => Kind::Look,
            Call::Save { .. } => Kind::Save,
            Call::Restore { .. } => Kind::Restore,
            Call::Why { .. } => Kind::Why,
        }
    }

    /// How long a buffer the call is lent.
    pub fn buffer_length(&self) -> usize {
        match self {
            Call::Save { length } => *length,
            _ => 0,
        }
    }
}

impl fmt::Display for Call<'_> {
    fn fmt(&self, f: &mut fmt::Formatter) -> fmt::Result {
        write!(f, "{}", self.kind().name())?;
        match self {
            Call::Start { screen, flags }
            | Call::FinishingStart { screen, flags }
            | Call::Why { screen, flags } => write!(f, " of {screen}, flags, hex: {flags:08x}"),
            Call::Save { length } => write!(f, ", buffer of {length} bytes"),
            Call::Restore { image } => write!(f, ", image, hex: {}", hex(image, usize::MAX)),
            Call::Launch { edition } => write!(f, ", edition {edition}"),
            Call::Back | Call::Look => Ok(()),
        }
    }
}

/// What a call gives by itself.
#[derive(Clone, Copy, Debug, PartialEq)]
pub enum Reply {
    /// The answer's nine numbers.
    Answer([u8; 9]),
    /// Of save, the refusal's number, or 0, and the image's length.
    Saved(u8, usize),
    /// Of why, the reason's four numbers.
    Reason([u8; 4]),
}

impl Reply {
    pub fn refusal(&self) -> u8 {
        match self {
            Reply::Answer(numbers) => numbers[0],
            Reply::Saved(refusal, _) => *refusal,
            Reply::Reason(numbers) => numbers[0],
        }
    }

    /// How many screens a call closed that was accepted and gives an answer.
    pub fn closed(&self) -> Option<u8> {
        match self {
            Reply::Answer([0, .., closed, _, _]) => Some(*closed),
            _ => None,
        }
    }
}

/// The call by the static library, on the session and the buffer as lent.
pub fn by_library(call: Call, table: &[u8], session: &mut Stored, buffer: &mut [u8]) -> Reply {
    Reply::Answer(match call {
        Call::Launch { edition } => library::launch(table, session, edition),
        Call::Start { screen, flags } => library::start(table, session, screen, flags),
        Call::FinishingStart { screen, flags } => {
            library::finishing_start(table, session, screen, flags)
        }
        Call::Back => library::back(table, session),
        Call::Look => library::look(table, session),
        Call::Save { .. } => {
            let (refusal, length) = library::save(table, session, buffer);
            return Reply::Saved(refusal, length);
        }
        Call::Restore { image } => library::restore(table, session, image),
        Call::Why { screen, flags } => {
            return Reply::Reason(library::why(table, session, screen, flags))
        }
    })
}

/// The call by the second navigator, on its own session.
pub fn on_session(call: Call, table: &[u8], session: &mut Session, buffer: &mut [u8]) -> Reply {
    let answer = match call {
        Call::Launch { edition } => calls::launch(table, session, edition),
        Call::Start { screen, flags } => calls::start(table, session, screen, flags),
        Call::FinishingStart { screen, flags } => {
            calls::finishing_start(table, session, screen, flags)
        }
        Call::Back => calls::back(table, session),
        Call::Look => calls::look(table, session),
        Call::Save { .. } => {
            let (refusal, length) = calls::save(table, session, buffer);
            return Reply::Saved(refusal, length);
        }
        Call::Restore { image } => calls::restore(table, session, image),
        Call::Why { screen, flags } => {
            return Reply::Reason(calls::why(table, session, screen, flags).numbers())
        }
    };
    Reply::Answer(answer.numbers())
}

/// The call by the second navigator, whose session after it is stored anew. A
/// refused call leaves each byte.
pub fn by_second(call: Call, table: &[u8], stored: &mut Stored, buffer: &mut [u8]) -> Reply {
    let mut session = stored.view();
    let reply = on_session(call, table, &mut session, buffer);
    if reply.refusal() == 0 {
        *stored = Stored::hold(&session).expect("a sound session can be stored");
    }
    reply
}

/// All that there is after a call.
#[derive(PartialEq)]
pub struct Outcome {
    pub reply: Reply,
    pub session: Stored,
    pub buffer: Vec<u8>,
}

impl fmt::Display for Outcome {
    fn fmt(&self, f: &mut fmt::Formatter) -> fmt::Result {
        match self.reply {
            Reply::Answer(numbers) => writeln!(f, "answer {numbers:?}")?,
            Reply::Saved(refusal, length) => writeln!(f, "refusal {refusal}, length {length}")?,
            Reply::Reason(numbers) => writeln!(f, "reason {numbers:?}")?,
        }
        write!(f, "  session, hex: {}", hex(&self.session.bytes(), TASK))?;
        if !self.buffer.is_empty() {
            write!(f, "\n  buffer, hex: {}", hex(&self.buffer, usize::MAX))?;
        }
        Ok(())
    }
}
