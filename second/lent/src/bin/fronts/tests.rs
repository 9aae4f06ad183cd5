//! The comparison finds wrong sets: in the static library's place stands one that is
//! right or has one thing wrong.

use second::fronts::fillings;
use second::table::{flag_word, ALL_FLAGS, FLAG_WORDS, NO_HISTORY};
use second::{Session, Table};

use lent_calls::stored::Stored;

use crate::check::{told_by_second, Asked, Checker};
use crate::library::{FrontSet, Library};

/// What the stand-in does wrong, if anything.
#[derive(Clone, Copy, Debug, PartialEq)]
enum Wrong {
    Nothing,
    FirstLeftOut,
    LastLeftOut,
    RefusedCounted,
    EmptiedCountedAsScreen0,
    CallerKept,
    R7CallerCloses,
    KnownBitIgnored,
    CountOfZeros,
    CountOfFillings,
    KnownBitsBeforeScreen,
    ValueOutsideTaken,
    MaskOutsideTaken,
    EmptyRefused,
    RefusedSetKept,
    BitOfTheRoot,
    HalfTheScreens,
    EditionEight,
}

use Wrong::*;

const WRONG: [Wrong; 17] = [
    FirstLeftOut,
    LastLeftOut,
    RefusedCounted,
    EmptiedCountedAsScreen0,
    CallerKept,
    R7CallerCloses,
    KnownBitIgnored,
    CountOfZeros,
    CountOfFillings,
    KnownBitsBeforeScreen,
    ValueOutsideTaken,
    MaskOutsideTaken,
    EmptyRefused,
    RefusedSetKept,
    BitOfTheRoot,
    HalfTheScreens,
    EditionEight,
];

struct StandIn(Wrong);

fn refused(refusal: u8) -> FrontSet {
    FrontSet {
        set: 0,
        refusal,
        count: 0,
    }
}

impl StandIn {
    fn is(&self, wrong: Wrong) -> bool {
        self.0 == wrong
    }

    /// The refusal, or 0.
    fn refusal(&self, asked: &Asked) -> u8 {
        let right = told_by_second(asked).refusal;
        let (mask, value) = (asked.mask, asked.value);
        let mask_is_wrong = mask & !ALL_FLAGS != 0;
        let value_is_wrong = value & !mask != 0;
        match (self.0, right) {
            (KnownBitsBeforeScreen, 3) if mask_is_wrong || value_is_wrong => 35,
            (ValueOutsideTaken, 35) if !mask_is_wrong => 0,
            (MaskOutsideTaken, 35) if !value_is_wrong => 0,
            (EmptyRefused, 0) if asked.session.n == 0 => 21,
            _ => right,
        }
    }

    fn words(&self, asked: &Asked) -> Vec<u32> {
        let mask = asked.mask & ALL_FLAGS;
        let value = asked.value & mask;
        let mut words: Vec<u32> = fillings(mask, value).collect();
        match self.0 {
            FirstLeftOut => drop(words.remove(0)),
            LastLeftOut => drop(words.pop()),
            KnownBitIgnored => {
                let other = |word: &u32| (word ^ value) & mask == NO_HISTORY.min(mask);
                words = (0..FLAG_WORDS)
                    .map(flag_word)
                    .filter(|word| word & mask == value || other(word))
                    .collect();
            }
            _ => {}
        }
        words
    }

    /// The screen in front after a start.
    fn front(&self, table: &Table, session: &Session, screen: u8, word: u32) -> Option<u8> {
        let mut after = session.clone();
        if self.is(EditionEight) {
            after.edition = 8;
        }
        if self.is(CallerKept) {
            after.no_history = false;
        }
        let rule = session.decide(table, screen, word).rule as u8;
        let result = match (self.0, rule) {
            (R7CallerCloses, 7) if session.no_history => after.finishing_start(table, screen, word),
            _ => after.start(table, screen, word),
        };
        if result.is_err() && !self.is(RefusedCounted) {
            return None;
        }
        match after.tasks.first() {
            None if self.is(EmptiedCountedAsScreen0) => Some(0),
            None => None,
            Some(front) if self.is(BitOfTheRoot) => Some(front.root),
            Some(front) => front.top(),
        }
    }

    fn told(&self, asked: &Asked) -> FrontSet {
        let (Ok(table), session) = (Table::parse(&asked.table), asked.session.view()) else {
            return refused(1);
        };
        if session.is_empty() {
            return refused(0);
        }
        let words = self.words(asked);
        let mut set = 0u64;
        for &word in &words {
            if let Some(screen) = self.front(&table, &session, asked.screen, word) {
                let place = if self.is(HalfTheScreens) {
                    screen % 32
                } else {
                    screen
                };
                set |= 1 << place;
            }
        }
        let count = match self.0 {
            CountOfZeros => set.count_zeros(),
            CountOfFillings if set != 0 => words.len() as u32,
            _ => set.count_ones(),
        };
        FrontSet {
            set,
            refusal: 0,
            count: count as u8,
        }
    }
}

impl Library for StandIn {
    fn fronts(
        &self,
        table: &[u8],
        session: &Stored,
        screen: u8,
        mask: u32,
        value: u32,
    ) -> FrontSet {
        let asked = Asked {
            table: table.to_vec(),
            session: *session,
            screen,
            mask,
            value,
        };
        match self.refusal(&asked) {
            0 => self.told(&asked),
            refusal if self.is(RefusedSetKept) => FrontSet {
                count: 1,
                ..refused(refusal)
            },
            refusal => refused(refusal),
        }
    }
}

/// What the comparison says of a stand-in, and what did not come up.
fn found(wrong: Wrong, seed: u64) -> (Option<String>, Vec<String>) {
    let mut checker = Checker::new(StandIn(wrong));
    let found = crate::compare(&mut checker, seed, 150_000);
    let missing = checker.counts.missing();
    (
        found.err().map(|difference| difference.to_string()),
        missing,
    )
}

#[test]
fn nothing_is_found_where_nothing_is_wrong_and_every_case_comes_up() {
    assert_eq!(found(Nothing, 1), (None, Vec::new()));
}

#[test]
fn each_wrong_set_is_found() {
    for (seed, wrong) in (2..).zip(WRONG) {
        let (said, _) = found(wrong, seed);
        let said = said.unwrap_or_else(|| panic!("{wrong:?} is not found"));
        assert!(said.starts_with("difference, found in: "), "{said}");
    }
}
