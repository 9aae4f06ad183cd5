//! How far a long input is, on standard error where that is a terminal.

use std::io::{self, IsTerminal, Write};
use std::time::{Duration, Instant};

/// So many records go by between two looks at the clock.
const RECORDS: u64 = 1 << 16;
const PAUSE: Duration = Duration::from_secs(1);

pub struct Progress {
    what: &'static str,
    told: Option<Instant>,
    shown: bool,
}

impl Progress {
    /// Counts `what`. `quiet` where lines go to standard output meanwhile: on a
    /// terminal they tell how far it is.
    pub fn new(what: &'static str, quiet: bool) -> Progress {
        let told = io::stderr().is_terminal() && !(quiet && io::stdout().is_terminal());
        Progress {
            what,
            told: told.then(Instant::now),
            shown: false,
        }
    }

    /// So many records are done, or lines.
    #[inline]
    pub fn at(&mut self, done: u64) {
        if done.is_multiple_of(RECORDS) {
            self.tell(done);
        }
    }

    fn tell(&mut self, done: u64) {
        let Some(last) = self.told else { return };
        if last.elapsed() >= PAUSE {
            // Where it cannot be told, nothing is lost.
            let _ = write!(io::stderr(), "\rmilch: {done} {}", self.what);
            self.told = Some(Instant::now());
            self.shown = true;
        }
    }
}

impl Drop for Progress {
    fn drop(&mut self) {
        if self.shown {
            let _ = writeln!(io::stderr());
        }
    }
}
