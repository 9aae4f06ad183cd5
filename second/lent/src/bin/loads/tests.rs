//! The comparison finds wrong generators: in the static library's place stands the
//! second navigator's, as it is or with one thing wrong.

use second::table::{ALL_FLAGS, NO_HISTORY};
use second::Table;

use crate::check::{loaded_by_second, Checker};
use crate::library::{Library, Reply};

/// What the stand-in does wrong, if anything.
#[derive(Clone, Copy, Debug, PartialEq)]
enum Wrong {
    Nothing,
    OtherFeedback,
    BitTestedAfterHalving,
    KindWithoutPlusOne,
    ScreenNotReduced,
    MaskOfSix,
    LowByteFirst,
    StateAfterFirstStep,
    SeedReturned,
    ZeroReturnedWhereNoneFits,
    CountRoundedUp,
    ByteBeyondWritten,
    BeyondCleared,
    LastRecordMissing,
    SeedCheckedBeforeTable,
    SeedZeroTaken,
    SeedGivenWhereRefused,
    BufferClearedWhereRefused,
}

use Wrong::*;

const WRONG: [Wrong; 17] = [
    OtherFeedback,
    BitTestedAfterHalving,
    KindWithoutPlusOne,
    ScreenNotReduced,
    MaskOfSix,
    LowByteFirst,
    StateAfterFirstStep,
    SeedReturned,
    ZeroReturnedWhereNoneFits,
    CountRoundedUp,
    ByteBeyondWritten,
    BeyondCleared,
    LastRecordMissing,
    SeedCheckedBeforeTable,
    SeedZeroTaken,
    SeedGivenWhereRefused,
    BufferClearedWhereRefused,
];

struct StandIn(Wrong);

impl StandIn {
    fn is(&self, wrong: Wrong) -> bool {
        self.0 == wrong
    }

    fn step(&self, state: u32) -> u32 {
        let half = state >> 1;
        let tested = if self.is(BitTestedAfterHalving) {
            half
        } else {
            state
        };
        let feedback = if self.is(OtherFeedback) {
            0x8020_0002
        } else {
            0x8020_0003
        };
        if tested & 1 == 1 {
            half ^ feedback
        } else {
            half
        }
    }

    /// A record, and the states after the first and the third step.
    fn record(&self, screens: u8, state: u32) -> ([u8; 6], [u32; 2]) {
        let first = self.step(state);
        let second = self.step(first);
        let third = self.step(second);
        let kind = first % 5 + u32::from(!self.is(KindWithoutPlusOne));
        let screen = match self.is(ScreenNotReduced) {
            true => second,
            false => second % u32::from(screens),
        };
        let mask = match self.is(MaskOfSix) {
            true => ALL_FLAGS & !NO_HISTORY,
            false => ALL_FLAGS,
        };
        let mut word = (third & mask).to_be_bytes();
        if self.is(LowByteFirst) {
            word.reverse();
        }
        let [w0, w1, w2, w3] = word;
        let record = [kind as u8, screen as u8, w0, w1, w2, w3];
        (record, [first, third])
    }

    fn fill(&self, screens: u8, seed: u32, out: &mut [u8]) -> Reply {
        let mut state = seed;
        let mut given = match self.is(ZeroReturnedWhereNoneFits) {
            true => 0,
            false => seed,
        };
        let whole = out.len() / 6;
        let made = whole - usize::from(self.is(LastRecordMissing) && whole > 3);
        for place in out.chunks_exact_mut(6).take(made) {
            let (record, [first, third]) = self.record(screens, state);
            place.copy_from_slice(&record);
            state = third;
            given = match self.0 {
                StateAfterFirstStep => first,
                SeedReturned => seed,
                _ => third,
            };
        }
        let beyond = &mut out[6 * whole..];
        match self.0 {
            ByteBeyondWritten if beyond.len() == 5 => beyond[0] = beyond[0].wrapping_add(1),
            BeyondCleared => beyond.fill(0),
            _ => {}
        }
        let more = usize::from(self.is(CountRoundedUp) && !beyond.is_empty());
        Reply {
            refusal: 0,
            state: given,
            count: whole + more,
        }
    }

    fn refused(&self, refusal: u8, seed: u32, out: &mut [u8]) -> Reply {
        if self.is(BufferClearedWhereRefused) {
            out.fill(0);
        }
        let state = if self.is(SeedGivenWhereRefused) {
            seed
        } else {
            0
        };
        Reply {
            refusal,
            state,
            count: 0,
        }
    }
}

impl Library for StandIn {
    fn load(&self, table: &[u8], seed: u32, out: &mut [u8]) -> Reply {
        if self.is(Nothing) {
            return loaded_by_second(table, seed, out);
        }
        if self.is(SeedCheckedBeforeTable) && seed == 0 {
            return self.refused(32, seed, out);
        }
        if let Err(refusal) = Table::parse(table) {
            return self.refused(refusal as u8, seed, out);
        }
        if seed == 0 && !self.is(SeedZeroTaken) {
            return self.refused(32, seed, out);
        }
        self.fill(table[0], seed, out)
    }
}

/// What the comparison says of a stand-in, and what did not come up.
fn found(wrong: Wrong, seed: u64) -> (Option<String>, Vec<String>) {
    let mut checker = Checker::new(StandIn(wrong));
    let found = crate::compare(&mut checker, seed, 5000);
    let found = found.and_then(|()| match wrong {
        Nothing => crate::longest(&mut checker, seed),
        _ => Ok(()),
    });
    let missing = checker.counts.missing();
    (
        found.err().map(|difference| difference.to_string()),
        missing,
    )
}

#[test]
fn nothing_is_found_where_nothing_is_wrong_and_every_case_comes_up() {
    assert_eq!(found(Nothing, 1), (None, Vec::new()));
}

#[test]
fn each_wrong_generator_is_found_with_a_small_example() {
    for (seed, wrong) in (2..).zip(WRONG) {
        let (said, _) = found(wrong, seed);
        let said = said.unwrap_or_else(|| panic!("{wrong:?} is not found"));
        assert!(said.starts_with("difference, found in: "), "{said}");
        assert!(said.len() < 1500, "{said}");
    }
}
