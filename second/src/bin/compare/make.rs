//! Makes inputs: a fixed set with every kind of bad table, cut and bad record,
//! and random ones of several styles.

use second::edition::EDITIONS;
use second::load;
use second::play::{Player, RECORD};
use second::random::Random;
use second::table::{flag_word, ALL_FLAGS, FLAGS, MULTIPLE_TASK, NEW_TASK, NO_HISTORY};

use crate::check::Input;
use crate::no_history;

/// The table of the paper's examples.
pub const T: [u8; 14] = [6, 0, 0, 1, 0, 1, 1, 1, 2, 2, 3, 1, 0, 2];

const LAUNCH: u8 = 1;

/// The launch that names an edition by this byte.
pub fn launch(edition: u8) -> [u8; RECORD] {
    record(LAUNCH, edition, 0)
}

pub fn record(kind: u8, screen: u8, flags: u32) -> [u8; RECORD] {
    let [a, b, c, d] = flags.to_be_bytes();
    [kind, screen, a, b, c, d]
}

/// The inputs that are the same for every seed.
pub fn fixed() -> Vec<Input> {
    let mut inputs = Inputs::default();
    inputs.add_cut_tables();
    inputs.add_bad_tables();
    inputs.add_cut_records();
    inputs.add("every kind, screen and flag bit", &T, &every_byte());
    inputs.add("every edition byte", &T, &editions());
    let kept = no_history::kept();
    inputs.add("what keeps a No-History front", &T, &kept);
    inputs.0
}

#[derive(Default)]
struct Inputs(Vec<Input>);

impl Inputs {
    fn add(&mut self, what: &str, table: &[u8], records: &[u8]) {
        self.0.push(Input {
            what: what.to_string(),
            table: table.to_vec(),
            records: records.to_vec(),
        });
    }

    /// Tables that are cut or have a bad N, and the largest.
    fn add_cut_tables(&mut self) {
        self.add("empty input", &[], &[]);
        self.add("a table alone", &T, &[]);
        for n in [0, 65, 66, 128, 255] {
            self.add("N bad, nothing else", &[n], &[]);
            let mut table = vec![0; 2 + 2 * usize::from(n)];
            table[0] = n;
            self.add("N bad", &table, &some());
        }
        let mut largest = vec![0; 130];
        largest[0] = 64;
        for length in 1..T.len() {
            self.add("cut table", &T[..length], &[]);
        }
        for length in [1, 2, 64, 128, 129] {
            self.add("cut largest table", &largest[..length], &[]);
        }
        largest[1] = 63;
        self.add("largest table", &largest, &some());
    }

    /// Tables whose content is bad.
    fn add_bad_tables(&mut self) {
        for main in [6, 7, 64, 255] {
            self.add("bad main screen", &with_byte(1, main), &every_kind());
        }
        for screen in 0..6 {
            for mode in [4, 255] {
                let table = with_byte(2 + 2 * screen, mode);
                self.add("bad mode", &table, &every_kind());
            }
        }
    }

    /// Cut last records of each length, under a good and a bad table.
    fn add_cut_records(&mut self) {
        let bad = with_byte(1, 6);
        for kind in [0, 1, 2, 3, 4, 5, 6, 50, 255] {
            for length in 1..RECORD {
                let cut = &record(kind, 1, 0)[..length];
                let last = [&some(), cut].concat();
                self.add("cut record", &T, &last);
                self.add("cut record alone", &T, cut);
                self.add("cut record under a bad table", &bad, &last);
            }
        }
    }
}

/// T with one byte changed.
fn with_byte(place: usize, byte: u8) -> [u8; 14] {
    let mut table = T;
    table[place] = byte;
    table
}

/// A few records.
fn some() -> Vec<u8> {
    [launch(0), record(2, 1, 0), record(3, 5, 0), record(4, 0, 0)].concat()
}

/// A record of every kind byte.
fn every_kind() -> Vec<u8> {
    let kinds = (0..=255).map(|kind| record(kind, kind, u32::MAX));
    kinds.flatten().collect()
}

/// Every kind, every screen and every flag bit, on an empty session and not.
fn every_byte() -> Vec<u8> {
    let launched = launch(0);
    let mut all = Vec::new();
    for begin in [&launched[..0], &launched] {
        all.extend(begin);
        all.extend(every_kind());
        for kind in [2, 3] {
            for screen in 0..=255 {
                all.extend(record(kind, screen, 0));
                all.extend(record(kind, screen, 1));
                all.extend(launch(0));
            }
            for bit in 0..32 {
                all.extend(record(kind, 1, 1 << bit));
                all.extend(record(kind, 1, ALL_FLAGS | 1 << bit));
                all.extend(launch(0));
            }
        }
        for kind in [1, 4, 5] {
            all.extend(record(kind, 255, u32::MAX));
        }
        all.extend(record(4, 0, 0).repeat(700));
    }
    all
}

/// Launches with every edition byte, on an empty session and on one of each
/// edition.
fn editions() -> Vec<u8> {
    let mut records = Vec::new();
    for present in EDITIONS {
        for edition in 0..=255 {
            // Where the first is refused the second is too, and Back.
            let same = launch(edition).repeat(2);
            records.extend([&same[..], &record(5, 0, 0), &record(4, 0, 0)].concat());
            records.extend([launch(present), launch(edition), record(5, 0, 0)].concat());
            records.extend(record(4, 0, 0).repeat(2));
        }
    }
    records
}

/// The seeds of loads: the least, the last, and powers of two.
const SEEDS: [u32; 6] = [1, 2, 1 << 16, 1 << 31, u32::MAX, 0x1234_5678];

/// Of how many records a load is.
const LOAD: usize = 4000;

/// Recordings made by the generator of loads, under T, the smallest and the largest
/// tables and random ones.
pub fn loads(random: &mut Random) -> Vec<Input> {
    let mut tables = vec![T.to_vec()];
    for screens in [1, 2, 3, 9, 64] {
        tables.push(random.table(screens, 2, &[4, 2, 2, 1]));
    }
    let mut inputs = Inputs::default();
    for table in tables {
        for seed in SEEDS.into_iter().chain([random.next() as u32 | 1]) {
            let what = format!("a load from seed {seed:08x}");
            inputs.add(&what, &table, &load::records(&table, seed, LOAD));
        }
    }
    inputs.0
}

/// How a stretch of records is made.
struct Mood {
    /// Weights of launch, start, finishing start, Back and look.
    kinds: [u64; 5],
    /// Weights of no flag, one of the seven, any set of the other six, a set with NTK
    /// and without MTK, and NTK with MTK.
    flags: [u64; 5],
    /// So many in a hundred starts have the No-History flag besides.
    no_history: u64,
    /// So many in a hundred starts take one of a few screens.
    favourite: u64,
    favourites: Vec<u8>,
    /// So many in a hundred records are bad.
    bad: u64,
    length: u64,
}

const MIXED: [u64; 5] = [2, 50, 20, 25, 3];
const GROWING: [u64; 5] = [1, 93, 2, 3, 1];
const SHRINKING: [u64; 5] = [1, 20, 10, 65, 4];
const FINISHING: [u64; 5] = [1, 15, 78, 4, 2];

fn mood(random: &mut Random, style: usize, n: u8) -> Mood {
    let kinds = match style {
        3 => random.one_of(&[FINISHING, FINISHING, GROWING, MIXED]),
        _ => random.one_of(&[MIXED, MIXED, GROWING, SHRINKING, FINISHING]),
    };
    let flags = match style {
        0 => [10, 10, 80, 0, 0],
        _ => random.one_of(&[
            [20, 20, 20, 20, 20],
            [0, 0, 100, 0, 0],
            [5, 60, 30, 5, 0],
            [10, 5, 5, 80, 0],
            [30, 5, 5, 10, 50],
        ]),
    };
    let favourites = (0..random.between(1, 3))
        .map(|_| random.byte(u16::from(n)))
        .collect();
    let mood = Mood {
        kinds,
        flags,
        no_history: random.one_of(&[0, 0, 5, 30, 80]),
        favourite: random.one_of(&[0, 50, 90, 99]),
        favourites,
        bad: if style == 4 {
            25
        } else {
            random.one_of(&[0, 0, 1])
        },
        length: random.between(10, 150),
    };
    if style == 2 {
        deep_mood(random, mood)
    } else {
        mood
    }
}

/// For deep stacks: tasks are filled to 32 screens and the session to 16 tasks,
/// and what is full is then tried by a few starts of any screen.
fn deep_mood(random: &mut Random, mut mood: Mood) -> Mood {
    match random.below(6) {
        0 | 1 => {
            // Fill a task with one screen.
            mood.kinds = GROWING;
            mood.flags = [98, 0, 1, 1, 0];
            mood.no_history = random.one_of(&[0, 0, 5]);
            mood.favourites.truncate(1);
            mood.favourite = 99;
            mood.length = random.between(30, 60);
        }
        2 => {
            // Fill the session with tasks.
            mood.kinds = GROWING;
            mood.flags = [20, 1, 1, 1, 77];
            mood.no_history = random.one_of(&[0, 0, 5]);
            mood.length = random.between(15, 50);
        }
        3 | 4 => {
            // Try what is there.
            mood.kinds = [1, 60, 30, 8, 1];
            mood.flags = [25, 10, 15, 50, 0];
            mood.favourite = 0;
            mood.length = random.between(2, 12);
        }
        _ => mood.length = random.between(5, 40),
    }
    mood
}

/// A record for a session that is empty or not.
fn any_record(random: &mut Random, mood: &Mood, n: u8, empty: bool) -> [u8; RECORD] {
    let kind = if empty && random.percent(80) {
        LAUNCH
    } else {
        1 + random.weighted(&mood.kinds) as u8
    };
    let screen = if kind == LAUNCH {
        random.edition_byte()
    } else if random.percent(mood.favourite) {
        random.one_of(&mood.favourites)
    } else {
        random.byte(u16::from(n))
    };
    let mut made = record(kind, screen, any_flags(random, mood));
    if random.percent(mood.bad) {
        match random.below(6) {
            0 => made[0] = random.byte(256),
            1 => made[0] = random.one_of(&[0, 6]),
            2 => made[1] = random.byte(256),
            3 => made[1] = n,
            4 => made[2 + random.below(4) as usize] ^= 1 << random.below(8),
            _ => made[2..].copy_from_slice(&(random.next() as u32).to_be_bytes()),
        }
    }
    made
}

fn any_flags(random: &mut Random, mood: &Mood) -> u32 {
    let any = flag_word(random.below(64) as u32);
    let flags = match random.weighted(&mood.flags) {
        0 => 0,
        1 => random.one_of(&FLAGS),
        2 => any,
        3 => any & !MULTIPLE_TASK | NEW_TASK,
        _ => NEW_TASK | MULTIPLE_TASK,
    };
    match random.percent(mood.no_history) {
        true => flags | NO_HISTORY,
        false => flags,
    }
}

const STYLES: [&str; 5] = [
    "any flags",
    "few screens",
    "deep stacks",
    "finishing starts",
    "bad records",
];

/// A random input of a number of records between these, and at most the limit.
pub fn random(random: &mut Random, (least, most): (u64, u64), limit: u64) -> Input {
    let style = random.below(STYLES.len() as u64) as usize;
    let n = match style {
        0 => random.between(1, 64) as u8,
        4 => random.one_of(&[1, 2, 5, 20, 63, 64]),
        _ => random.between(2, 6) as u8,
    };
    let affinities = random.one_of(&[1, 2, 2, 3, 4, 8, 255]);
    let modes = match style {
        2 => random.one_of(&[[6, 2, 2, 0], [5, 3, 1, 1], [3, 1, 3, 1]]),
        _ => random.one_of(&[[1, 1, 1, 1], [4, 2, 2, 1], [6, 1, 0, 1], [2, 0, 3, 2]]),
    };
    let table = random.table(n, affinities, &modes);
    let mut player = Player::open(&mut &table[..])
        .expect("bytes in memory can be read")
        .expect("the table is whole");
    let length = random.between(least, most).min(limit);
    let mut records = Vec::with_capacity(length as usize * RECORD);
    while (records.len() / RECORD) < length as usize {
        let mood = mood(random, style, n);
        for _ in 0..mood.length {
            let made = any_record(random, &mood, n, player.session.is_empty());
            player.record(&made);
            records.extend(made);
        }
    }
    records.truncate(length as usize * RECORD);
    if random.percent(20) && records.len() > RECORD {
        records.truncate(records.len() - random.between(1, 5) as usize);
    }
    Input {
        what: format!("random, {}", STYLES[style]),
        table,
        records,
    }
}
