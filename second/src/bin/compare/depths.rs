//! Depth reports are compared: one line for a whole recording, and whether the
//! program warned that not all of it is tallied, or that it begins with no table.

use std::cmp::Ordering;
use std::fmt;
use std::time::Instant;

use second::cases::{Case, Cases};
use second::depth::Depth;
use second::play::{Played, Player};
use second::random::Random;
use second::tally::MOST_CALLS;

use crate::check::{Checker, Difference, Manner};
use crate::outside::{Output, Outside};
use crate::{make, recordings, Options};

/// What is compared after the line where there is a warning.
const WARNED: &[u8] = b"(a warning)\n";

/// What is to come up, and which recordings have it.
const CASES: [Case<Depth>; 10] = [
    ("no call", |depth| depth.calls() == 0),
    ("nothing accepted", |depth| {
        depth.calls() > 0 && depth.tally.accepted == 0
    }),
    ("a mean of 0 of accepted calls", |depth| {
        depth.tally.accepted > 0 && depth.tally.sum == 0
    }),
    ("a mean rounded to 0", |depth| {
        depth.tally.sum > 0 && depth.report().tenths == 0
    }),
    ("a mean rounded down", |depth| {
        part(depth) == Some(Ordering::Less)
    }),
    ("a mean rounded up past the half", |depth| {
        part(depth) == Some(Ordering::Greater)
    }),
    ("a greatest of 32", |depth| depth.tally.greatest == 32),
    ("65,535 calls", |depth| {
        depth.calls() == u64::from(MOST_CALLS)
    }),
    ("65,536 calls", |depth| {
        depth.calls() == u64::from(MOST_CALLS) + 1
    }),
    ("more calls than that", |depth| depth.untallied > 1),
];

/// How often each exact half is to come up.
const EACH_HALF: u64 = 100;

/// The means in the middle of two tenths.
const HALVES: [Case<Depth>; 2] = [
    ("an exact half, even below", |depth| {
        depth.tally.half_above().is_some_and(|below| below % 2 == 0)
    }),
    ("an exact half, odd below", |depth| {
        depth.tally.half_above().is_some_and(|below| below % 2 == 1)
    }),
];

/// How the part of a tenth that the mean has beside whole ones compares with the
/// half. `None` if there is no such part.
fn part(depth: &Depth) -> Option<Ordering> {
    let accepted = u32::from(depth.tally.accepted);
    let rest = (10 * depth.tally.sum).checked_rem(accepted)?;
    (rest > 0).then(|| (2 * rest).cmp(&accepted))
}

/// The accepted starts of a recording from a No-History front.
#[derive(Default)]
struct Starts {
    /// Whether the front is such a one now.
    no_history: bool,
    by_r7: u64,
    by_others: u64,
    finishing: u64,
}

/// What is to come up of those.
const STARTS: [Case<Starts>; 3] = [
    ("a No-History front that R7 keeps", |starts| {
        starts.by_r7 > 0
    }),
    ("one that closes by a start", |starts| starts.by_others > 0),
    ("one that finishes", |starts| starts.finishing > 0),
];

impl Starts {
    fn add(&mut self, played: &Played) {
        if played.answer.refusal != 0 {
            return;
        }
        if let (true, Some(reason)) = (self.no_history, played.reason) {
            match (played.kind, reason.rule) {
                (2, 7) => self.by_r7 += 1,
                (2, _) => self.by_others += 1,
                _ => self.finishing += 1,
            }
        }
        self.no_history = played.answer.no_history == 1;
    }
}

/// How many recordings had each case.
pub struct Depths {
    cases: Cases<Depth>,
    halves: Cases<Depth>,
    starts: Cases<Starts>,
}

impl Default for Depths {
    fn default() -> Depths {
        Depths {
            cases: Cases::new(&CASES),
            halves: Cases::at_least(EACH_HALF, &HALVES),
            starts: Cases::new(&STARTS),
        }
    }
}

impl Manner for Depths {
    const HEARS: bool = true;

    fn expected(&mut self, bytes: &[u8]) -> (Vec<u8>, u64) {
        let mut starts = Starts::default();
        let depth = Depth::read_each(bytes, |played| starts.add(played));
        let depth = depth.expect("bytes in memory can be read");
        self.cases.add(&depth);
        self.halves.add(&depth);
        self.starts.add(&starts);
        let player = Player::open(&mut &bytes[..]).expect("bytes in memory can be read");
        let warned = if player.is_none() || depth.untallied > 0 {
            WARNED
        } else {
            &[]
        };
        let line = format!("{depth}\n");
        ([line.as_bytes(), warned].concat(), depth.calls())
    }

    fn compared(output: Output) -> Result<Vec<u8>, String> {
        let Output {
            lines, warnings, ..
        } = output;
        if warnings.is_empty() {
            return Ok(lines);
        }
        if warnings.starts_with(b"warning: ") {
            return Ok([&lines[..], WARNED].concat());
        }
        let text = String::from_utf8_lossy(&warnings);
        Err(format!("no warning, on standard error: {text}"))
    }

    fn records_to(_: &[u8], _: usize) -> Option<usize> {
        None
    }

    fn missing(&self) -> Vec<String> {
        let Depths {
            cases,
            halves,
            starts,
        } = self;
        [cases.missing(), halves.missing(), starts.missing()].concat()
    }
}

impl fmt::Display for Depths {
    fn fmt(&self, f: &mut fmt::Formatter) -> fmt::Result {
        writeln!(f, "recordings with")?;
        self.cases.fmt(f)?;
        self.halves.fmt(f)?;
        self.starts.fmt(f)
    }
}

pub fn run(
    options: &Options,
    checker: &mut Checker<Depths, impl Outside>,
) -> Result<(), Box<Difference>> {
    let begun = Instant::now();
    let means = recordings::means().chain(recordings::halves());
    for input in make::fixed().into_iter().chain(means) {
        checker.check(&input)?;
    }
    checker.tell("fixed recordings", begun);

    let begun = Instant::now();
    for input in make::loads(&mut Random::new(options.seed)) {
        checker.check(&input)?;
    }
    checker.tell("loads", begun);

    let begun = Instant::now();
    for input in recordings::long() {
        checker.check(&input)?;
    }
    checker.tell("long recordings", begun);

    let begun = Instant::now();
    let mut random = Random::new(options.seed);
    let target = checker.records + options.records;
    while checker.records < target {
        let input = recordings::random(&mut random, target - checker.records);
        checker.check(&input)?;
    }
    checker.tell("random recordings", begun);
    Ok(())
}
