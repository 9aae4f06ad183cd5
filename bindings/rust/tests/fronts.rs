//! Which screens could be in front where flags are missing.

mod common;

use common::{session, table_t};
use milchkompass::{Edition, Flags, Refusal, Replay, Session};

/// 5:[1,5] 0:[0], m 2: a task that began with 5, under another screen.
fn covered() -> Session {
    session(&[(5, &[1, 5]), (0, &[0])], 2)
}

#[test]
fn with_new_task_unknown() {
    let fronts = covered().fronts(5, !Flags::NEW_TASK, Flags::NONE);
    let fronts = fronts.expect("nothing refuses it");
    assert_eq!((fronts.bits(), fronts.len()), (0x22, 2));
    assert_eq!(fronts.screens().collect::<Vec<_>>(), [1, 5]);
    assert_eq!(fronts.to_string(), "1,5");
    assert!(fronts.contains(1) && !fronts.contains(0) && !fronts.contains(64));
    let known = |value| covered().fronts(5, Flags::all(), value).map(|f| f.bits());
    assert_eq!(known(Flags::NONE), Ok(0x20));
    assert_eq!(known(Flags::NEW_TASK), Ok(0x02));
}

#[test]
fn none_of_an_empty_session() {
    let fronts = Session::new(table_t()).fronts(5, Flags::NONE, Flags::NONE);
    let fronts = fronts.expect("nothing refuses it");
    assert!(fronts.is_empty() && fronts.bits() == 0 && fronts.to_string().is_empty());
    assert_eq!(fronts.screens().count(), 0);
}

#[test]
fn refusals() {
    let other = Flags::from_bits_retain(1);
    for s in [covered(), Session::new(table_t())] {
        let fronts = |screen, known, values| s.fronts(screen, known, values);
        assert_eq!(fronts(6, other, other), Err(Refusal::NoSuchScreen));
        let bad = Err(Refusal::BadKnownFlags);
        assert_eq!(fronts(5, other, Flags::NONE), bad);
        assert_eq!(fronts(5, Flags::NEW_TASK, Flags::SINGLE_TOP), bad);
    }
}

/// A replay tells the same, and of a table that is refused its refusal.
#[test]
fn of_a_replay() {
    let mut replay = Replay::new(table_t().bytes());
    for record in [
        [1, 0, 0, 0, 0, 0],
        [2, 5, 0x10, 0, 0, 0],
        [2, 1, 0, 0, 0, 0],
    ] {
        replay.next(&record);
    }
    let told = replay.fronts(5, !Flags::NEW_TASK, Flags::NONE);
    assert_eq!(told.map(|fronts| fronts.bits()), Ok(0x22));
    let refused = Replay::new(&[1, 0]).fronts(0, Flags::NONE, Flags::NONE);
    assert_eq!(refused, Err(Refusal::TableLength));
}

/// Knowing more never adds a screen, over all of one flag's values.
#[test]
fn knowing_more() {
    let mut s = covered();
    for edition in Edition::ALL {
        while s.back().is_ok() {}
        s.launch(*edition).expect("it is empty");
        s.start(5, Flags::NEW_TASK | Flags::NO_HISTORY)
            .expect("room");
        s.start(1, Flags::NONE).expect("room");
        let nothing = s.fronts(5, Flags::NONE, Flags::NONE).expect("known");
        for (_, flag) in Flags::all().iter_names() {
            for value in [Flags::NONE, flag] {
                let more = s.fronts(5, flag, value).expect("known");
                assert_eq!(more.bits() & !nothing.bits(), 0);
            }
        }
    }
}
