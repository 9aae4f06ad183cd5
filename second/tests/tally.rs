//! Tallies of answers and their reports, by hand from requests 6 and 11.

use std::collections::HashSet;

use second::tally::{Report, Tally, MOST_CALLS};
use second::Refusal;

/// What a tally takes of an answer: its refusal and its front height.
type Taken = (u8, u8);

const NOT_TALLIED: Result<(), Refusal> = Err(Refusal::NotTallied);

/// Stretches of equal answers and the report of the list that they make.
type Example = (&'static [(usize, Taken)], [u16; 4]);

const EXAMPLES: [Example; 21] = [
    (&[], [0, 0, 0, 0]),
    // 10.5, 12.5, 11.5 and 10.6 tenths; 13.3 and 16.7.
    (&[(19, (0, 1)), (1, (0, 2))], [20, 0, 2, 10]),
    (&[(15, (0, 1)), (5, (0, 2))], [20, 0, 2, 12]),
    (&[(17, (0, 1)), (3, (0, 2))], [20, 0, 2, 12]),
    (&[(47, (0, 1)), (3, (0, 2))], [50, 0, 2, 11]),
    (&[(2, (0, 1)), (1, (0, 2))], [3, 0, 2, 13]),
    (&[(1, (0, 1)), (2, (0, 2))], [3, 0, 2, 17]),
    // Heights of 0: a mean of 2.5 tenths, of half a tenth, and of less.
    (&[(5, (0, 0))], [5, 0, 0, 0]),
    (&[(3, (0, 0)), (1, (0, 1))], [4, 0, 1, 2]),
    (&[(19, (0, 0)), (1, (0, 1))], [20, 0, 1, 0]),
    (&[(20, (0, 0)), (1, (0, 1))], [21, 0, 1, 0]),
    // The height of a refused answer is not looked at.
    (&[(1, (21, 0)), (1, (9, 5)), (1, (255, 200))], [0, 3, 0, 0]),
    (&[(1, (0, 2)), (2, (22, 7)), (1, (0, 1))], [2, 2, 2, 15]),
    (&[(1, (0, 2)), (2, (1, 33))], [1, 2, 2, 20]),
    // An accepted 33 is not tallied, and what comes after it is.
    (&[(1, (0, 32)), (1, (0, 33)), (1, (0, 30))], [2, 0, 32, 310]),
    (&[(70_000, (0, 255)), (1, (0, 1))], [1, 0, 1, 10]),
    // The 65,535th call and the one after it.
    (&[(65_534, (0, 1)), (1, (0, 2))], [65_535, 0, 2, 10]),
    (&[(65_535, (0, 1)), (1, (0, 2))], [65_535, 0, 1, 10]),
    (&[(65_534, (21, 0)), (1, (0, 3))], [1, 65_534, 3, 30]),
    (&[(65_535, (21, 0)), (1, (0, 3))], [0, 65_535, 0, 0]),
    (
        &[(30_000, (0, 32)), (40_000, (4, 0))],
        [30_000, 35_535, 32, 320],
    ),
];

fn list(stretches: &[(usize, Taken)]) -> impl Iterator<Item = Taken> + '_ {
    let stretch = |&(length, taken)| std::iter::repeat_n(taken, length);
    stretches.iter().flat_map(stretch)
}

#[test]
fn examples() {
    for (stretches, expected) in EXAMPLES {
        let mut tally = Tally::default();
        for (refusal, height) in list(stretches) {
            let before = tally;
            if tally.add(refusal, height).is_err() {
                assert_eq!(tally, before);
            }
        }
        let report = tally.report().unwrap();
        assert_eq!(report.numbers(), expected, "of {stretches:?}");
    }
}

/// A way to read the request, by a list and not by a tally.
#[derive(Clone, Copy)]
struct Reading {
    most: usize,
    highest: u8,
    /// Ten times the sum and the number of heights, which is not 0.
    rounded: fn(u64, u64) -> u64,
    /// Which answers give heights to the mean, and which to the greatest.
    in_mean: fn(Taken) -> bool,
    in_greatest: fn(Taken) -> bool,
}

const RIGHT: Reading = Reading {
    most: 65_535,
    highest: 32,
    rounded: nearest,
    in_mean: |(refusal, _)| refusal == 0,
    in_greatest: |(refusal, _)| refusal == 0,
};

fn reported(reading: Reading, stretches: &[(usize, Taken)]) -> [u16; 4] {
    let tallied: Vec<Taken> = list(stretches)
        .filter(|&(refusal, height)| refusal != 0 || height <= reading.highest)
        .take(reading.most)
        .collect();
    let heights = |wanted: fn(Taken) -> bool| {
        let chosen = tallied.iter().filter(move |&&taken| wanted(taken));
        chosen.map(|&(_, height)| u64::from(height))
    };
    let accepted = tallied.iter().filter(|taken| taken.0 == 0).count();
    let (sum, count) = (
        heights(reading.in_mean).sum::<u64>(),
        heights(reading.in_mean).count() as u64,
    );
    let tenths = match count {
        0 => 0,
        _ => (reading.rounded)(10 * sum, count),
    };
    let greatest = heights(reading.in_greatest).max().unwrap_or(0);
    let refused = tallied.len() - accepted;
    [accepted as u64, refused as u64, greatest, tenths].map(|number| number as u16)
}

/// The number from which the quotient is at most a half away, and which is even where
/// it is just that; by search.
fn nearest(ten: u64, heights: u64) -> u64 {
    let fits = |tenths: &u64| {
        let away = (2 * ten).abs_diff(2 * tenths * heights);
        away < heights || away == heights && tenths % 2 == 0
    };
    let mut all = (0..=2550).filter(fits);
    let one = all.next().expect("a number fits");
    assert_eq!(all.next(), None, "no other fits");
    one
}

/// How wrong readings differ from the right one.
const WRONG: [(&str, fn(&mut Reading)); 13] = [
    ("truncated", |reading| {
        reading.rounded = |ten, heights| ten / heights
    }),
    ("upward", |reading| {
        reading.rounded = |ten, heights| ten.div_ceil(heights)
    }),
    ("half downward", |reading| {
        reading.rounded = |ten, heights| (2 * ten + heights - 1) / (2 * heights)
    }),
    ("half upward", |reading| {
        reading.rounded = |ten, heights| (2 * ten + heights) / (2 * heights)
    }),
    ("half to odd", |reading| {
        reading.rounded = |ten, heights| {
            let (below, rest) = (ten / heights, ten % heights);
            below + u64::from(2 * rest + (below + 1) % 2 > heights)
        }
    }),
    ("to the even neighbour, half or not", |reading| {
        reading.rounded = |ten, heights| {
            let below = ten / heights;
            below + u64::from(ten % heights > 0) * (below % 2)
        }
    }),
    ("refused heights in the mean", |reading| {
        reading.in_mean = |_| true
    }),
    ("greatest over refused ones", |reading| {
        reading.in_greatest = |_| true
    }),
    ("heights of 0 not in the mean", |reading| {
        reading.in_mean = |(refusal, height)| refusal == 0 && height > 0
    }),
    ("full one call early", |reading| reading.most = 65_534),
    ("full one call late", |reading| reading.most = 65_536),
    ("33 taken", |reading| reading.highest = 33),
    ("32 not taken", |reading| reading.highest = 31),
];

#[test]
fn the_examples_tell_wrong_readings() {
    for (stretches, expected) in EXAMPLES {
        assert_eq!(reported(RIGHT, stretches), expected, "of {stretches:?}");
    }
    for (name, change) in WRONG {
        let mut reading = RIGHT;
        change(&mut reading);
        let mut all = EXAMPLES.iter();
        let told = all.any(|(stretches, expected)| reported(reading, stretches) != *expected);
        assert!(told, "{name} is as good");
    }
}

#[test]
fn the_65536th_call_is_refused_and_every_one_after_it() {
    let mut tally = Tally::default();
    for call in 0..MOST_CALLS {
        let refusal = (call % 3) as u8;
        assert_eq!(tally.add(refusal, 32), Ok(()));
    }
    let full = Tally {
        sum: 21_845 * 32,
        accepted: 21_845,
        refused: 43_690,
        greatest: 32,
    };
    for (refusal, height) in [(0, 0), (0, 32), (21, 0), (0, 33), (31, 0)] {
        assert_eq!(tally.add(refusal, height), NOT_TALLIED);
        assert_eq!(tally, full);
    }
    assert_eq!(tally.report().unwrap().numbers(), [21_845, 43_690, 32, 320]);
}

fn tally(sum: u32, accepted: u16, refused: u16, greatest: u8) -> Tally {
    Tally {
        sum,
        accepted,
        refused,
        greatest,
    }
}

#[test]
fn tallies_of_no_list() {
    let bad = [
        tally(0, 40_000, 25_536, 0),
        tally(0, 65_535, 1, 0),
        tally(0, 65_535, 65_535, 0),
        tally(1, 0, 0, 0),
        tally(0, 0, 0, 1),
        tally(1, 0, 5, 1),
        tally(33, 1, 0, 33),
        tally(255, 9, 0, 255),
        tally(6, 2, 0, 7),
        tally(15, 2, 0, 7),
        tally(1, 2, 0, 0),
        tally(65_535 * 32 + 1, 65_535, 0, 32),
        tally(u32::MAX, u16::MAX, u16::MAX, u8::MAX),
        // Ten or twenty times the sum passes 32 bits.
        tally(429_496_730, 65_535, 0, 32),
    ];
    for tally in bad {
        for (refusal, height) in [(0, 0), (0, 1), (21, 0), (0, 200)] {
            let mut after = tally;
            assert_eq!(after.add(refusal, height), NOT_TALLIED);
            assert_eq!(after, tally);
        }
        assert_eq!(tally.report(), Err(Refusal::NotTallied));
    }
}

#[test]
fn tallies_at_the_borders() {
    let good = [
        (tally(65_535 * 32, 65_535, 0, 32), [65_535, 0, 32, 320]),
        (tally(32, 65_535, 0, 32), [65_535, 0, 32, 0]),
        (tally(0, 40_000, 25_535, 0), [40_000, 25_535, 0, 0]),
        (tally(7, 2, 0, 7), [2, 0, 7, 35]),
        (tally(14, 2, 0, 7), [2, 0, 7, 70]),
        (tally(0, 0, 65_535, 0), [0, 65_535, 0, 0]),
    ];
    for (tally, numbers) in good {
        assert_eq!(tally.report().map(Report::numbers), Ok(numbers));
    }
}

/// Exactly the tallies of short lists pass the check, among those of as many calls.
#[test]
fn the_check_takes_the_tallies_of_lists() {
    const CALLS: u16 = 3;
    let mut reached = HashSet::from([Tally::default()]);
    for _ in 0..CALLS {
        for from in reached.clone() {
            let answers = (0..=32).map(|height| (0, height)).chain([(21, 0)]);
            for (refusal, height) in answers {
                let mut after = from;
                after.add(refusal, height).unwrap();
                reached.insert(after);
            }
        }
    }
    for accepted in 0..=CALLS {
        for refused in 0..=CALLS - accepted {
            for (sum, greatest) in (0..=100).flat_map(|sum| (0..=40).map(move |top| (sum, top))) {
                let any = tally(sum, accepted, refused, greatest);
                assert_eq!(any.is_of_a_list(), reached.contains(&any), "{any:?}");
            }
        }
    }
}
