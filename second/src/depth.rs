//! The depth report of a recording: a table and records come in, one line goes
//! out.

use std::fmt;
use std::io::{self, Read};

use crate::play::{Played, Player};
use crate::tally::{Report, Tally};
use crate::Answer;

/// What a recording comes to. One on whose table the player stops has no calls.
#[derive(Clone, Copy, Debug, Default, PartialEq, Eq)]
pub struct Depth {
    pub tally: Tally,
    /// How many calls came when the tally was full.
    pub untallied: u64,
}

impl Depth {
    /// Plays a whole recording and tallies its calls.
    pub fn read(input: impl Read) -> io::Result<Depth> {
        Depth::read_each(input, |_| ())
    }

    /// The same, and does something with what each record comes to.
    pub fn read_each(mut input: impl Read, mut each: impl FnMut(&Played)) -> io::Result<Depth> {
        let mut depth = Depth::default();
        if let Some(mut player) = Player::open(&mut input)? {
            player.records(&mut input, |played| {
                each(&played);
                depth.add(&played.answer);
                Ok(())
            })?;
        }
        Ok(depth)
    }

    fn add(&mut self, answer: &Answer) {
        if self.tally.add(answer.refusal, answer.height).is_err() {
            self.untallied += 1;
        }
    }

    /// How many calls the recording has.
    pub fn calls(&self) -> u64 {
        u64::from(self.tally.calls()) + self.untallied
    }

    pub fn report(&self) -> Report {
        self.tally.report().expect("it is the tally of a list")
    }
}

/// The four numbers of the report, spaces between.
impl fmt::Display for Depth {
    fn fmt(&self, f: &mut fmt::Formatter) -> fmt::Result {
        let [accepted, refused, greatest, tenths] = self.report().numbers();
        write!(f, "{accepted} {refused} {greatest} {tenths}")
    }
}
