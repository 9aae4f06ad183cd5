//! Random recordings: good ones, and ones that are wrong in each way.

use milch::opening::{self, Opening};
use milchkompass::Flags;

use crate::random::Random;

const FLAGS: [Flags; 7] = [
    Flags::NEW_TASK,
    Flags::SINGLE_TOP,
    Flags::MULTIPLE_TASK,
    Flags::CLEAR_TOP,
    Flags::REORDER_TO_FRONT,
    Flags::CLEAR_TASK,
    Flags::NO_HISTORY,
];

/// How records are made: by kind out of this list, with each flag so many times in
/// a hundred.
struct Mood {
    kinds: &'static [u8],
    flag: [usize; 7],
}

/// Much of everything; tasks that grow high; tasks that grow many.
const MOODS: [Mood; 3] = [
    Mood {
        kinds: &[1, 1, 2, 2, 2, 2, 2, 2, 2, 3, 3, 4, 4, 4, 5],
        flag: [30, 20, 10, 10, 15, 10, 10],
    },
    Mood {
        kinds: &[1, 2, 2, 2, 2, 2, 2, 2, 2, 2, 2, 2, 2, 3, 4, 5],
        flag: [2, 2, 2, 1, 3, 1, 2],
    },
    Mood {
        kinds: &[1, 2, 2, 2, 2, 2, 2, 2, 2, 2, 2, 3, 4, 5],
        flag: [80, 5, 70, 2, 3, 2, 3],
    },
];

/// A table of so many screens, mostly standard ones.
pub fn table(random: &mut Random, screens: usize) -> Vec<u8> {
    let mut table = vec![screens as u8, random.below(screens) as u8];
    for _ in 0..screens {
        let mode = random.one_of(&[0, 0, 0, 0, 1, 1, 2, 2, 3]);
        table.extend([mode, random.one_of(&[0, 1, 1, 2, 2, 3])]);
    }
    table
}

/// A table that the player stops on, or one under which all is refused.
pub fn bad_table(random: &mut Random) -> Vec<u8> {
    let screens = 1 + random.below(8);
    let mut table = table(random, screens);
    match random.below(6) {
        0 => table.clear(),
        1 => table[0] = random.one_of(&[0, 65, 128, 255]),
        2 => {
            let length = 1 + random.below(table.len() - 1);
            table.truncate(length);
        }
        3 => table[1] = table[0],
        _ => table[2] = random.one_of(&[4, 7, 255]),
    }
    table
}

/// A record of a mood, as good as its kind can be, but for one in a hundred.
fn record(random: &mut Random, mood: &Mood, screens: usize) -> [u8; 6] {
    let kind = random.one_of(mood.kinds);
    let screen = match kind {
        1 => random.one_of(&[0, 0, 6, 7, 8]),
        2 | 3 => random.below(screens) as u8,
        _ => 0,
    };
    let mut word = 0;
    if matches!(kind, 2 | 3) {
        for (flag, part) in FLAGS.iter().zip(mood.flag) {
            if random.percent(part) {
                word |= flag.bits();
            }
        }
    }
    let [a, b, c, d] = word.to_be_bytes();
    let mut record = [kind, screen, a, b, c, d];
    if random.percent(1) {
        let place = random.below(6);
        record[place] = random.one_of(&[0, 1, 2, 5, 6, 7, 64, 255]);
    }
    record
}

/// A recording: one in eight has a bad table, one in four a last record that is
/// cut.
pub fn recording(random: &mut Random, records: usize) -> Vec<u8> {
    let screens = random.one_of(&[1, 2, 3, 6, 12, 64]);
    let mut bytes = match random.below(8) {
        0 => bad_table(random),
        _ => table(random, screens),
    };
    let mood = &MOODS[random.below(MOODS.len())];
    for _ in 0..records {
        bytes.extend(record(random, mood, screens));
    }
    if random.percent(25) {
        let cut = record(random, mood, screens);
        bytes.extend_from_slice(&cut[..1 + random.below(5)]);
    }
    bytes
}

/// The same with some restores, whose images are sound or not.
pub fn with_restores(random: &mut Random, records: usize) -> Vec<u8> {
    let screens = 1 + random.below(6);
    let mut bytes = table(random, screens);
    for _ in 0..records {
        if random.percent(20) {
            let image = image(random, screens);
            bytes.extend([6, random.one_of(&[0, 0, 0, 9])]);
            bytes.extend((image.len() as u32).to_be_bytes());
            bytes.extend(image);
        } else {
            bytes.extend(record(random, &MOODS[0], screens));
        }
    }
    bytes
}

fn image(random: &mut Random, screens: usize) -> Vec<u8> {
    if random.percent(30) {
        let length = random.one_of(&[0, 1, 9, 40, 300, 4095, 4096, 4097, 5000]);
        return random.bytes(length);
    }
    let (root, top) = (random.below(screens) as u8, random.below(screens) as u8);
    vec![root, 2, top, root, 0, 4, 1, random.one_of(&[0, 1]), 8, 0x42]
}

/// A recording of six screens and of low stacks.
pub fn typical(random: &mut Random, records: usize) -> Vec<u8> {
    let mut bytes = vec![6, 0, 0, 1, 0, 1, 1, 1, 2, 2, 3, 1, 0, 2];
    for _ in 0..records {
        bytes.extend(record(random, &MOODS[0], 6));
    }
    bytes
}

/// Names of the screens of a recording, `n0` and so on, if it begins with a table.
pub fn names(recording: &[u8]) -> Option<String> {
    let Opening::Table(replay) = opening::begin(recording) else {
        return None;
    };
    let lines = (0..replay.rows().len()).map(|screen| format!("{screen} n{screen}\n"));
    Some(lines.collect())
}
