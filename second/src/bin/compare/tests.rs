//! The comparison of depth reports finds wrong roundings, and that of loads wrong loads:
//! in the outside program's place stands the second navigator, whose mean is rounded
//! anew, or its generator with one thing wrong.

use std::process::ExitStatus;

use second::depth::Depth;
use second::load;
use second::play::{Player, RECORD};

use crate::check::{Checker, Manner};
use crate::depths::{self, Depths};
use crate::loads::{self, Form, Loading};
use crate::outside::{Output, Outside};
use crate::Options;

/// The mean in tenths of heights of a sum, by ten times the sum and their number, which
/// is not 0.
type Rounding = fn(u32, u32) -> u32;

struct StandIn(Rounding);

impl StandIn {
    fn line(&self, depth: &Depth) -> String {
        let [accepted, refused, greatest, _] = depth.report().numbers();
        let tenths = match accepted {
            0 => 0,
            _ => (self.0)(10 * depth.tally.sum, u32::from(accepted)),
        };
        format!("{accepted} {refused} {greatest} {tenths}\n")
    }
}

impl Outside for StandIn {
    fn run<T>(
        &self,
        input: &[u8],
        _: bool,
        meanwhile: impl FnOnce() -> T,
    ) -> (Result<Output, String>, T) {
        let depth = Depth::read(input).expect("bytes in memory can be read");
        let player = Player::open(&mut &input[..]).expect("bytes in memory can be read");
        let warns = depth.untallied > 0 || player.is_none();
        let output = Output {
            lines: self.line(&depth).into_bytes(),
            warnings: if warns {
                b"warning: ".to_vec()
            } else {
                Vec::new()
            },
            status: ExitStatus::default(),
        };
        (Ok(output), meanwhile())
    }
}

/// What the comparison says of a rounding, and what did not come up.
fn compared(rounding: Rounding) -> (Option<String>, Vec<String>) {
    let options = Options {
        program: None,
        seed: 1,
        records: 300_000,
        sweep: false,
    };
    let mut checker = Checker::new(StandIn(rounding), Depths::default());
    let found = depths::run(&options, &mut checker);
    let missing = checker.manner.missing();
    (
        found.err().map(|difference| difference.to_string()),
        missing,
    )
}

#[test]
fn half_to_even_is_not_found_and_every_case_comes_up() {
    let (found, missing) = compared(|ten, heights| {
        let (below, rest) = (ten / heights, ten % heights);
        below + u32::from(2 * rest + below % 2 > heights)
    });
    assert_eq!(found, None);
    assert_eq!(missing, Vec::<String>::new());
}

const WRONG: [(&str, Rounding); 5] = [
    ("half upward", |ten, heights| {
        (2 * ten + heights) / (2 * heights)
    }),
    ("half downward", |ten, heights| {
        (2 * ten + heights - 1) / (2 * heights)
    }),
    ("half to odd", |ten, heights| {
        let (below, rest) = (ten / heights, ten % heights);
        below + u32::from(2 * rest + (below + 1) % 2 > heights)
    }),
    ("truncated", |ten, heights| ten / heights),
    ("to the even neighbour, half or not", |ten, heights| {
        let below = ten / heights;
        below + u32::from(ten % heights > 0) * (below % 2)
    }),
];

#[test]
fn wrong_roundings_are_found() {
    for (name, rounding) in WRONG {
        let (found, _) = compared(rounding);
        let said = found.unwrap_or_else(|| panic!("{name} is not found"));
        assert!(said.starts_with("difference, found in: "), "{said}");
    }
}

/// Makes loads as the library here does, with one thing changed in what is asked for or
/// in what is written.
struct WrongLoad {
    asked: fn(&mut loads::Asked),
    written: fn(&mut Vec<u8>),
}

impl Loading for WrongLoad {
    fn load(&self, asked: &loads::Asked) -> Result<Option<Vec<u8>>, String> {
        let mut asked = asked.clone();
        (self.asked)(&mut asked);
        let table = &asked.file[..asked.table];
        let mut records = vec![0; asked.records * RECORD];
        let Ok(load) = load::fill(table, asked.seed, &mut records) else {
            return Ok(None);
        };
        let mut written = match asked.form {
            Form::Whole => [table, &records].concat(),
            Form::Records => records,
            Form::State => format!("0x{:08x}\n", load.state).into_bytes(),
        };
        (self.written)(&mut written);
        Ok(Some(written))
    }
}

/// What the comparison says, and what did not come up.
fn compared_loads(loading: WrongLoad) -> (Option<String>, Vec<String>) {
    let mut checker = loads::Checker::new(loading);
    let found = loads::run(&mut checker, 1, 100_000);
    let missing = checker.cases.missing();
    (
        found.err().map(|difference| difference.to_string()),
        missing,
    )
}

#[test]
fn a_right_load_is_not_found_and_every_case_comes_up() {
    let right = WrongLoad {
        asked: |_| (),
        written: |_| (),
    };
    assert_eq!(compared_loads(right), (None, Vec::new()));
}

#[test]
fn wrong_loads_are_found_with_a_small_example() {
    let asked: [fn(&mut loads::Asked); 6] = [
        |asked| asked.form = Form::Whole,
        |asked| {
            if asked.form == Form::State && asked.records > 20 {
                asked.seed ^= 1;
            }
        },
        |asked| asked.seed = asked.seed.max(1),
        |asked| asked.seed = asked.seed.swap_bytes(),
        |asked| asked.records += 1,
        |asked| asked.table = asked.file.len(),
    ];
    let written: [fn(&mut Vec<u8>); 3] = [
        |written| {
            if let Some(last) = written.last_mut() {
                *last ^= 1;
            }
        },
        |written| drop(written.drain(..4)),
        |written| written.truncate(6_000),
    ];
    let wrong = (asked.map(|asked| WrongLoad {
        asked,
        written: |_| (),
    }))
    .into_iter()
    .chain(written.map(|written| WrongLoad {
        asked: |_| (),
        written,
    }));
    for (number, loading) in wrong.enumerate() {
        let (found, _) = compared_loads(loading);
        let said = found.unwrap_or_else(|| panic!("wrong load {number} is not found"));
        assert!(said.starts_with("difference, found in: "), "{said}");
        assert!(said.len() < 1000, "{said}");
    }
}
