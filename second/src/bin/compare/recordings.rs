//! Makes recordings for depth reports, fixed ones for the means and the limit of
//! calls, and random ones of many lengths.

use second::play::RECORD;
use second::random::Random;
use second::session::MAX_HEIGHT;
use second::table::MAX_SCREENS;

use crate::check::Input;
use crate::make::{self, launch, record, T};

/// The greatest number of records of each height in a mean.
const EACH: usize = 20;

/// How many looks there are fewer than, where the mean is a half, before and behind.
const LOOKS: (usize, usize) = (4, 60);

/// The numbers of calls about the limit, and such as have the same number in 16
/// bits.
const LENGTHS: [usize; 8] = [
    65_533, 65_534, 65_535, 65_536, 65_537, 70_000, 131_071, 131_072,
];

fn recording(what: &str, table: &[u8], records: Vec<u8>) -> Input {
    Input {
        what: what.to_string(),
        table: table.to_vec(),
        records,
    }
}

fn looks(length: usize) -> Vec<u8> {
    record(5, 0, 0).repeat(length)
}

/// Every mean of a few heights of 0 and of 1, and of 1 and of 2. The calls that are
/// refused in between, at height 1, are in no mean.
pub fn means() -> impl Iterator<Item = Input> {
    let up = [launch(0), record(2, 1, 0)].concat();
    let numbers = (0..=EACH).flat_map(|low| (1..=EACH).map(move |high| (low, high)));
    numbers.flat_map(move |(low, high)| {
        let (looks_low, looks_high) = (looks(low), looks(high - 1));
        let low = [&looks_low, &up[..RECORD], &launch(0), &looks_high].concat();
        let high = [
            &up[..RECORD],
            &looks_low,
            &launch(0),
            &up[RECORD..],
            &looks_high,
        ]
        .concat();
        [
            recording("means of 0 and 1", &T, low),
            recording("means of 1 and 2", &T, high),
        ]
    })
}

/// Of tasks of each height, with a few looks at the empty session before them and more
/// looks behind, those whose mean lies in the middle of two tenths.
pub fn halves() -> impl Iterator<Item = Input> {
    let numbers = (1..=MAX_HEIGHT).flat_map(|height| {
        (0..LOOKS.0).flat_map(move |low| (0..LOOKS.1).map(move |high| (height, low, high)))
    });
    numbers.filter_map(|(height, low, high)| {
        let (calls, sum) = (
            low + height + high,
            height * (height + 1) / 2 + high * height,
        );
        let is_half = 20 * sum % calls == 0 && 20 * sum / calls % 2 == 1;
        let records = [
            looks(low),
            launch(0).to_vec(),
            record(2, 1, 0).repeat(height - 1),
            looks(high),
        ];
        is_half.then(|| recording("exact halves", &T, records.concat()))
    })
}

/// Calls about the limit: accepted at height 0 and at height 32, and refused, with
/// another as the last.
pub fn long() -> impl Iterator<Item = Input> {
    let top = [&launch(0)[..], &record(2, 1, 0).repeat(31)].concat();
    let refused = record(2, 6, 0);
    let mut bad = T;
    bad[1] = 6;
    LENGTHS.into_iter().flat_map(move |length| {
        let below = length - 1;
        let high = [&top[..], &looks(below - 32)].concat();
        let half = [&top[..], &refused.repeat(below / 2)].concat();
        let halves = [&half[..], &looks(below - half.len() / RECORD)].concat();
        [
            ("looks, then a launch", T, looks(below), &launch(0)[..]),
            ("looks, then a refused call", T, looks(below), &refused),
            ("looks, then a cut record", T, looks(below), &[5]),
            (
                "refused calls, then a launch",
                T,
                refused.repeat(below),
                &launch(0),
            ),
            ("a full task, then Back", T, high.clone(), &record(4, 0, 0)),
            ("a full task, then a refused call", T, high, &refused),
            ("some refused calls, then Back", T, halves, &record(4, 0, 0)),
            ("a table of bad content", bad, looks(below), &launch(0)),
            ("N bad", [0; 14], looks(below), &launch(0)),
        ]
        .map(|(what, table, records, last)| {
            let what = format!("{length} calls: {what}");
            recording(&what, &table, [&records, last].concat())
        })
    })
}

/// A random recording of at most these many records. Now and then its table is bad
/// in its content, or the player stops on it.
pub fn random(random: &mut Random, limit: u64) -> Input {
    let lengths = match random.weighted(&[50, 30, 19, 1]) {
        0 => (0, 60),
        1 => (61, 1_000),
        2 => (1_001, 10_000),
        _ => (65_500, 66_000),
    };
    let mut input = make::random(random, lengths, limit);
    let screens = input.table[0];
    match random.below(50) {
        0 => input.table[1] = random.between(u64::from(screens), 255) as u8,
        1 => input.table[2 + 2 * usize::from(random.byte(screens.into()))] = 4,
        2 => input.table[0] = random.one_of(&[0, MAX_SCREENS + 1, 255]),
        3 => {
            input.records.clear();
            input
                .table
                .truncate(random.below(input.table.len() as u64) as usize);
        }
        _ => {}
    }
    input
}
