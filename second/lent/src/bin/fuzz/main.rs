//! Calls the proved static library with random and damaged bytes at the edges
//! of memory.
//!
//!     fuzz [--seed N] [--seconds N] [--calls N]
//!
//! The table, the session, the image and the buffer of every call end at a page
//! that may not be touched, or begin right behind one. The program ends after so
//! many seconds, or after so many calls if that is sooner. A fault ends it with the
//! call's number and exit code 1, and so does an answer, session or buffer that
//! is not the second navigator's, and a change of any other byte.

mod made;

use std::process::ExitCode;
use std::time::{Duration, Instant};

use second::random::Random;

use lent_calls::call::{by_library, Call, Kind, Outcome};
use lent_calls::check::{buffer_before, Checked, Checker};
use lent_calls::fault;
use lent_calls::pages::{Edge, Pages};
use lent_calls::run;
use lent_calls::stored::{Stored, SESSION};

use made::{Base, Made};

/// How many calls are made from one table and session.
const CALLS_OF_A_BASE: u64 = 20;

fn main() -> ExitCode {
    let known = [("--seed", 1), ("--seconds", 5), ("--calls", u64::MAX)];
    let Some([seed, seconds, calls]) = run::options(known) else {
        eprintln!("usage: fuzz [--seed N] [--seconds N] [--calls N]");
        return ExitCode::from(2);
    };
    fault::watch("fuzz");
    let begun = Instant::now();
    let end = begun + Duration::from_secs(seconds);
    let mut checker = run::checker();
    let found = fuzz(&mut checker, seed, end, calls);
    run::end("fuzz", seed, begun, checker.told(), found, Vec::new())
}

fn fuzz(checker: &mut Checker, seed: u64, end: Instant, calls: u64) -> Checked {
    let mut random = Random::new(seed);
    let mut memory = Memory::new();
    let mut made = 0;
    while made < calls && Instant::now() < end {
        let base = Base::random(&mut random);
        checker.counts.add_session(&base.session);
        for _ in 0..CALLS_OF_A_BASE.min(calls - made) {
            fault::begin_call(made);
            let bytes = base.made(&mut random);
            memory.call(checker, &mut random, &bytes)?;
            made += 1;
        }
    }
    Ok(())
}

/// The pages that the four regions lie in.
struct Memory {
    table: Pages,
    session: Pages,
    image: Pages,
    buffer: Pages,
}

impl Memory {
    fn new() -> Memory {
        Memory {
            table: Pages::new(made::LONGEST_TABLE),
            session: Pages::new(SESSION),
            image: Pages::new(made::LONGEST_IMAGE),
            buffer: Pages::new(made::LONGEST_BUFFER),
        }
    }

    /// Makes one call and compares all of these pages that it could reach.
    fn call(&mut self, checker: &mut Checker, random: &mut Random, bytes: &Made) -> Checked {
        let before = buffer_before(bytes.call(&bytes.image));
        let present = bytes.session.bytes();
        let edges = [(); 4].map(|()| Edge::random(random));
        let table = self.table.place(&bytes.table, edges[0]);
        let session = self.session.place(&present, edges[1]);
        let image = self.image.place(&bytes.image, edges[2]);
        let buffer = self.buffer.place(&before, edges[3]);

        let reply = by_library(bytes.call(image), table, Stored::lent(session), buffer);
        let outcome = Outcome {
            reply,
            session: *Stored::lent(session),
            buffer: buffer.to_vec(),
        };
        let outside = *table != bytes.table[..]
            || *image != bytes.image[..]
            || self.table.touched(bytes.table.len(), edges[0])
            || self.session.touched(SESSION, edges[1])
            || self.image.touched(bytes.image.len(), edges[2])
            || self.buffer.touched(before.len(), edges[3]);
        let call = bytes.call(&bytes.image);
        checker.judge("fuzz", &bytes.table, &bytes.session, call, outcome, outside)?;
        Ok(())
    }
}

impl Made {
    /// The call, with the image in this place.
    fn call<'a>(&self, image: &'a [u8]) -> Call<'a> {
        let (screen, flags) = (self.screen, self.flags);
        match self.kind {
            Kind::Launch => Call::Launch {
                edition: self.edition,
            },
            Kind::Start => Call::Start { screen, flags },
            Kind::FinishingStart => Call::FinishingStart { screen, flags },
            Kind::Back => Call::Back,
            Kind::Look => Call::Look,
            Kind::Save => Call::Save {
                length: self.length,
            },
            Kind::Restore => Call::Restore { image },
            Kind::Why => Call::Why { screen, flags },
        }
    }
}
