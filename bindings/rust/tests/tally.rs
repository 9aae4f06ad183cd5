//! The tally and its report: the sample, rounding, the limits, and which
//! tallies are refused.

mod common;

use common::{session, table_t};
use milchkompass::{Answer, Edition, Flags, Refusal, Report, Session, Tally};

const REFUSED: Result<(), Refusal> = Err(Refusal::NotTallied);

/// The tally of these answers: so many times a refusal and a height.
fn tally(answers: &[(u32, u8, u8)]) -> Tally {
    let mut tally = Tally::new();
    for (times, refusal, height) in answers {
        for _ in 0..*times {
            assert_eq!(tally.add(*refusal, *height), Ok(()));
        }
    }
    tally
}

fn printed(tally: &Tally) -> String {
    tally.report().expect("a tally of a list").to_string()
}

/// Adding is refused, and the tally stays.
fn not_added(before: Tally, refusal: u8, height: u8) {
    let mut tally = before;
    assert_eq!(tally.add(refusal, height), REFUSED, "{before:?}");
    assert_eq!(tally, before);
}

/// The player's example of document 01, and what each of its calls returns.
#[test]
fn the_sample() {
    let mut s = Session::new(table_t());
    let mut tally = Tally::default();
    let results = [
        s.launch(Edition::Android8),
        s.start(1, Flags::NONE),
        s.start(3, Flags::NONE),
        s.finish_start(0, Flags::NEW_TASK),
        s.back(),
        s.back(),
        s.back(),
        s.back(),
    ];
    for result in results {
        assert_eq!(tally.add_result(result), Ok(()));
    }
    let report = Report {
        accepted: 7,
        refused: 1,
        greatest: 3,
        tenths: 14,
    };
    assert_eq!(tally.report(), Ok(report));
    assert_eq!(report.to_string(), "7 1 3 14");
    assert_eq!((tally.sum, tally.greatest), (10, 3));
    assert_eq!((tally.accepted, tally.refused), (7, 1));
}

#[test]
fn nothing_accepted() {
    assert_eq!(Tally::new(), Tally::default());
    assert_eq!(Tally::new().report(), Ok(Report::default()));
    assert_eq!(printed(&tally(&[(3, 21, 0)])), "0 3 0 0");
    let emptied = session(&[(0, &[0])], 1).back();
    let mut tally = Tally::new();
    assert_eq!(tally.add_result(emptied), Ok(()));
    assert_eq!(tally.add_result(Ok(Answer::default())), Ok(()));
    assert_eq!(printed(&tally), "2 0 0 0");
}

/// To the nearest tenth, and halves to the even neighbour.
#[test]
fn rounding() {
    for (answers, wanted) in [
        ([(19, 0, 1), (1, 0, 2)], "20 0 2 10"),
        ([(15, 0, 1), (5, 0, 2)], "20 0 2 12"),
        ([(17, 0, 1), (3, 0, 2)], "20 0 2 12"),
        ([(19, 0, 0), (1, 0, 1)], "20 0 1 0"),
        ([(1, 0, 1), (2, 0, 2)], "3 0 2 17"),
        ([(2, 0, 1), (1, 0, 2)], "3 0 2 13"),
        ([(20, 0, 0), (1, 0, 1)], "21 0 1 0"),
        ([(1, 0, 32), (1, 24, 0)], "1 1 32 320"),
    ] {
        assert_eq!(printed(&tally(&answers)), wanted);
    }
}

/// Accepted heights are 0 to 32; those of refused answers are not looked at.
#[test]
fn heights() {
    let one = tally(&[(1, 0, 1)]);
    for height in 0..=255 {
        let mut accepted = one;
        if height <= 32 {
            assert_eq!(accepted.add(0, height), Ok(()));
            assert_eq!(accepted.sum, 1 + u32::from(height));
            assert_eq!(accepted.greatest, height.max(1));
        } else {
            not_added(one, 0, height);
            let too_high = Answer {
                height,
                ..Answer::default()
            };
            assert_eq!(accepted.add_result(Ok(too_high)), REFUSED);
            assert_eq!(accepted, one);
        }
        let mut refused = one;
        assert_eq!(refused.add(21, height), Ok(()));
        assert_eq!(Tally { refused: 1, ..one }, refused);
    }
}

/// Every refusal counts alike, the player's own too.
#[test]
fn refusals() {
    for number in 1..=255 {
        assert_eq!(printed(&tally(&[(1, number, 7)])), "0 1 0 0");
    }
    for refusal in Refusal::ALL {
        let mut tally = Tally::new();
        assert_eq!(tally.add_result(Err(*refusal)), Ok(()));
        assert_eq!(printed(&tally), "0 1 0 0");
    }
}

/// 65,535 answers are taken, and no further one.
#[test]
fn the_limit() {
    for (answers, wanted) in [
        ([(65_534, 0, 32), (1, 0, 32)], "65535 0 32 320"),
        ([(65_534, 21, 0), (1, 9, 0)], "0 65535 0 0"),
        ([(65_534, 21, 0), (1, 0, 2)], "1 65534 2 20"),
        ([(30_000, 0, 1), (35_535, 0, 2)], "65535 0 2 15"),
    ] {
        let full = tally(&answers);
        assert_eq!(printed(&full), wanted);
        not_added(full, 0, 0);
        not_added(full, 0, 33);
        not_added(full, 21, 0);
        assert_eq!(printed(&full), wanted);
    }
}

/// What no list of answers gives is neither reported nor added to.
#[test]
fn of_no_list() {
    for (sum, accepted, refused, greatest) in [
        (1, 0, 0, 0),
        (0, 0, 0, 1),
        (1, 0, 5, 1),
        (1, 1, 0, 2),
        (3, 1, 0, 2),
        (5, 2, 0, 2),
        (33, 1, 0, 33),
        (0, 1, 0, 33),
        (u32::MAX, 65_535, 0, 32),
        (0, 32_768, 32_768, 0),
        (0, 65_535, 1, 0),
        (65_535, 65_535, 65_535, 1),
    ] {
        let tally = Tally {
            sum,
            accepted,
            refused,
            greatest,
        };
        assert_eq!(tally.report(), Err(Refusal::NotTallied), "{tally:?}");
        not_added(tally, 0, 1);
        not_added(tally, 21, 0);
    }
}

/// A tally that was kept goes on where it stood.
#[test]
fn taken_up_again() {
    let first = tally(&[(3, 0, 2), (1, 21, 0)]);
    let mut kept = Tally {
        sum: 6,
        accepted: 3,
        refused: 1,
        greatest: 2,
    };
    assert_eq!(kept, first);
    assert_eq!(kept.add(0, 4), Ok(()));
    assert_eq!(kept, tally(&[(3, 0, 2), (1, 21, 0), (1, 0, 4)]));
}
