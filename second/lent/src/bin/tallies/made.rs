//! Random tallies, of lists of answers, at the borders of those, and any; and
//! random calls to be added.

use second::random::Random;
use second::tally::{Tally, MOST_CALLS};

use crate::check::Asked;

/// A tally of a list.
fn good(random: &mut Random) -> Tally {
    let most = u64::from(MOST_CALLS);
    let accepted = match random.below(5) {
        0 => random.below(4),
        1 | 2 => random.below(60),
        3 => most - random.below(3),
        _ => random.between(0, most),
    };
    let left = most - accepted;
    let refused = match random.below(3) {
        0 => left.saturating_sub(random.below(2)),
        1 => left.min(random.below(10)),
        _ => random.between(0, left),
    };
    let greatest = match accepted {
        0 => 0,
        _ => random.between(0, 32),
    };
    let sum = match random.below(4) {
        0 => greatest,
        1 => accepted * greatest,
        _ => random.between(greatest, accepted * greatest),
    };
    Tally {
        sum: sum as u32,
        accepted: accepted as u16,
        refused: refused as u16,
        greatest: greatest as u8,
    }
}

/// The tally with one number at a border, one off it, or anywhere.
fn at_a_border(random: &mut Random, mut tally: Tally) -> Tally {
    let most = u32::from(tally.accepted) * u32::from(tally.greatest);
    let any = random.next();
    match random.below(10) {
        0 => tally.refused = (MOST_CALLS + 1).saturating_sub(tally.accepted.into()) as u16,
        1 => tally.refused = any as u16,
        2 => tally.accepted = (MOST_CALLS + 1).saturating_sub(tally.refused.into()) as u16,
        3 => tally.accepted = random.one_of(&[0, 1, any as u16]),
        4 => tally.greatest = random.one_of(&[0, 1, 32, 33, 64, 255, any as u8]),
        5 => tally.sum = u32::from(tally.greatest).saturating_sub(1),
        6 => tally.sum = most + 1,
        7 => tally.sum = random.one_of(&[0, 1, u32::MAX, any as u32]),
        8 => {
            // The greatest sums of a greatest that is too large.
            tally.greatest = random.one_of(&[33, 255]);
            tally.sum = u32::from(tally.accepted) * u32::from(tally.greatest);
        }
        _ => tally.sum = most,
    }
    tally
}

/// A tally of a list whose mean in tenths is an odd number of halves, of any size, and
/// mostly an exact half therefore.
fn with_a_half(random: &mut Random) -> Tally {
    let part = random.between(1, u64::from(MOST_CALLS) / 20);
    let greatest = random.between(1, 32);
    let halves = 1 + 2 * random.below(10 * greatest);
    Tally {
        sum: (part * halves).max(greatest) as u32,
        accepted: (20 * part) as u16,
        refused: random.below(30) as u16,
        greatest: greatest as u8,
    }
}

fn tally(random: &mut Random) -> Tally {
    match random.below(11) {
        0 => Tally {
            sum: random.next() as u32,
            accepted: random.next() as u16,
            refused: random.next() as u16,
            greatest: random.byte(256),
        },
        1..=4 => good(random),
        5 => with_a_half(random),
        _ => {
            let good = good(random);
            at_a_border(random, good)
        }
    }
}

/// Any tally, and a call of any refusal and height.
pub fn any(random: &mut Random) -> Asked {
    let tally = tally(random);
    Asked {
        tally,
        refusal: match random.below(2) {
            0 => 0,
            _ => random.byte(256),
        },
        height: match random.below(2) {
            0 => random.one_of(&[0, 1, 31, 32, 33, 255]),
            _ => random.byte(256),
        },
    }
}
