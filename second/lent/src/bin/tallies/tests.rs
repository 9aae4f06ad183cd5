//! The comparison finds wrong tallies: in the static library's place stands the second
//! navigator, as it is or with its mean rounded otherwise.

use second::tally::{Report, Tally};

use crate::check::{added_by_second, reported_by_second, Checker};
use crate::library::Library;

/// The mean in tenths of heights of a sum, by ten times the sum and their number, which
/// is not 0.
type Rounding = fn(u32, u32) -> u32;

/// The second navigator, with this rounding if there is one.
struct StandIn(Option<Rounding>);

impl Library for StandIn {
    fn add(&self, tally: &mut Tally, refusal: u8, height: u8) -> (u8, bool) {
        (added_by_second(tally, refusal, height), false)
    }

    fn report(&self, tally: Tally) -> (u8, Report) {
        let (refusal, mut report) = reported_by_second(tally);
        if let (0, 1.., Some(rounding)) = (refusal, report.accepted, self.0) {
            report.tenths = rounding(10 * tally.sum, u32::from(report.accepted)) as u16;
        }
        (refusal, report)
    }
}

const WRONG: [(&str, Rounding); 5] = [
    ("half upward", |ten, heights| {
        (2 * ten + heights) / (2 * heights)
    }),
    ("half downward", |ten, heights| {
        (2 * ten + heights - 1) / (2 * heights)
    }),
    ("half to odd", |ten, heights| {
        let (below, rest) = (ten / heights, ten % heights);
        below + u32::from(2 * rest + (below + 1) % 2 > heights)
    }),
    ("truncated", |ten, heights| ten / heights),
    ("to the even neighbour, half or not", |ten, heights| {
        let below = ten / heights;
        below + u32::from(ten % heights > 0) * (below % 2)
    }),
];

#[test]
fn nothing_is_found_where_nothing_is_wrong_and_every_sort_comes_up() {
    let mut checker = Checker::new(StandIn(None));
    let found = crate::compare(&mut checker, 1, 200_000);
    assert!(found.is_ok());
    assert_eq!(checker.sorts.missing(), Vec::<String>::new());
}

#[test]
fn wrong_roundings_are_found() {
    for (name, rounding) in WRONG {
        let mut checker = Checker::new(StandIn(Some(rounding)));
        let found = crate::compare(&mut checker, 2, 200_000).err();
        let said = found.map(|difference| difference.to_string());
        let said = said.unwrap_or_else(|| panic!("{name} is not found"));
        assert!(said.starts_with("difference, found in: "), "{said}");
    }
}
