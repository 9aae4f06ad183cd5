//! Players are compared: a line for each record, with or without the reasons
//! under starts.

use std::fmt;
use std::time::Instant;

use second::play::{Played, Player, Writing, RECORD};
use second::random::Random;

use crate::check::{Checker, Difference, Manner};
use crate::counts::Counts;
use crate::outside::Output;
use crate::{heights, limits, make, no_history, sweep, Options};

/// Of how many records a random input is.
const LENGTHS: (u64, u64) = (500, 20_000);

pub struct Lines {
    writing: Writing,
    counts: Counts,
}

impl Lines {
    pub fn new(writing: Writing) -> Lines {
        let counts = Counts::default();
        Lines { writing, counts }
    }
}

impl Manner for Lines {
    // A player warns of kind 6, which random input has.
    const HEARS: bool = false;

    fn expected(&mut self, mut bytes: &[u8]) -> (Vec<u8>, u64) {
        let mut out = Vec::with_capacity(bytes.len() * 4);
        let opened = Player::open(&mut bytes).expect("bytes in memory can be read");
        let Some(mut player) = opened else {
            (self.writing)(&mut out, &Played::stopped());
            self.counts.add_bad_table();
            return (out, 0);
        };
        let mut records = 0;
        for record in bytes.chunks(RECORD) {
            let before = player.session.answer(0);
            let played = player.record(record);
            self.counts.add(&before, &player, record, &played);
            (self.writing)(&mut out, &played);
            records += 1;
        }
        (out, records)
    }

    fn compared(output: Output) -> Result<Vec<u8>, String> {
        Ok(output.lines)
    }

    fn records_to(here: &[u8], line: usize) -> Option<usize> {
        let lines = here.split_inclusive(|&byte| byte == b'\n').take(line + 1);
        // A record's line begins with a number, the reason under it with a space.
        Some(lines.filter(|line| line[0] != b' ').count())
    }

    fn missing(&self) -> Vec<String> {
        self.counts.missing()
    }
}

impl fmt::Display for Lines {
    fn fmt(&self, f: &mut fmt::Formatter) -> fmt::Result {
        self.counts.fmt(f)
    }
}

pub fn run(options: &Options, checker: &mut Checker) -> Result<(), Box<Difference>> {
    let begun = Instant::now();
    let mut random = Random::new(options.seed);
    for input in make::fixed() {
        checker.check(&input)?;
    }
    checker.tell("fixed inputs", begun);

    let begun = Instant::now();
    for input in make::loads(&mut Random::new(options.seed)) {
        checker.check(&input)?;
    }
    checker.tell("loads", begun);

    let begun = Instant::now();
    let calls = limits::limits(checker)?;
    checker.tell(&format!("limits ({calls} calls)"), begun);

    let begun = Instant::now();
    let calls = heights::heights(checker)?;
    checker.tell(&format!("heights ({calls} calls)"), begun);

    let begun = Instant::now();
    let calls = no_history::fronts(checker)?;
    checker.tell(&format!("No-History fronts ({calls} calls)"), begun);

    let begun = Instant::now();
    let target = checker.records + options.records;
    while checker.records < target {
        let input = make::random(&mut random, LENGTHS, target - checker.records);
        checker.check(&input)?;
    }
    checker.tell("random inputs", begun);

    if options.sweep {
        let begun = Instant::now();
        let swept = sweep::sweep(checker)?;
        checker.tell(&format!("sweep ({swept})"), begun);
    }
    Ok(())
}
