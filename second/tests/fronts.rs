//! Recordings with flags missing, by hand from request 12.

mod common;

use std::collections::BTreeSet;

use common::{no_history, session, session_in, T};
use second::fronts::{fillings, fronts};
use second::random::Random;
use second::table::{
    flag_word, ALL_FLAGS, CLEAR_TASK, CLEAR_TOP, MULTIPLE_TASK, NEW_TASK, NO_HISTORY,
    REORDER_TO_FRONT, SINGLE_TOP,
};
use second::{Refusal, Session};

fn set(screens: &[u8]) -> Result<BTreeSet<u8>, Refusal> {
    Ok(screens.iter().copied().collect())
}

#[test]
fn the_example() {
    let present = session(2, &[(5, &[1, 5]), (0, &[0])]);
    let mask = ALL_FLAGS & !NEW_TASK;
    assert_eq!(fronts(&T, &present, 5, mask, 0), set(&[1, 5]));
    assert_eq!(fronts(&T, &present, 5, ALL_FLAGS, NEW_TASK), set(&[1]));
    assert_eq!(fronts(&T, &present, 5, ALL_FLAGS, 0), set(&[5]));
    // In edition 6 R15 never fits.
    let six = session_in(6, 2, &[(5, &[1, 5]), (0, &[0])]);
    assert_eq!(fronts(&T, &six, 5, mask, 0), set(&[5]));
}

#[test]
fn fillings_agree_with_what_is_known() {
    assert_eq!(fillings(0, 0).count(), 128);
    assert_eq!(
        fillings(ALL_FLAGS, CLEAR_TOP).collect::<Vec<_>>(),
        [CLEAR_TOP]
    );
    let unknown = NEW_TASK | NO_HISTORY;
    let words: BTreeSet<u32> = fillings(ALL_FLAGS & !unknown, CLEAR_TASK).collect();
    let expected = [
        CLEAR_TASK,
        CLEAR_TASK | NEW_TASK,
        CLEAR_TASK | NO_HISTORY,
        CLEAR_TASK | unknown,
    ];
    assert_eq!(words, BTreeSet::from(expected));
}

#[test]
fn checks_and_their_order() {
    let empty = Session::fresh();
    let unsound = session(2, &[(0, &[0])]);
    let mut content = T;
    content[1] = 6;
    let bad_bits = (1, 0);
    let value_outside = (NEW_TASK, CLEAR_TOP);
    for (mask, value) in [
        bad_bits,
        value_outside,
        (0, NEW_TASK),
        (0, 1),
        (u32::MAX, 0),
    ] {
        let asked = |table, session, screen| fronts(table, session, screen, mask, value);
        assert_eq!(asked(&T, &empty, 5), Err(Refusal::KnownBits));
        assert_eq!(asked(&T, &empty, 6), Err(Refusal::NoSuchScreen));
        assert_eq!(asked(&T, &unsound, 6), Err(Refusal::SessionUnsound));
        assert_eq!(asked(&content, &unsound, 6), Err(Refusal::TableContent));
        assert_eq!(asked(&T[..3], &unsound, 6), Err(Refusal::TableLength));
    }
    assert_eq!(Refusal::KnownBits as u8, 35);
}

#[test]
fn an_empty_session_gives_the_empty_set() {
    assert_eq!(fronts(&T, &Session::fresh(), 0, 0, 0), set(&[]));
}

#[test]
fn a_start_that_empties_brings_none() {
    // A marked front alone, started again apart and single: it closes.
    let present = no_history(session(1, &[(0, &[0])]));
    let known = NEW_TASK | SINGLE_TOP;
    let mask = ALL_FLAGS & !NO_HISTORY;
    assert_eq!(fronts(&T, &present, 0, mask, known), set(&[]));
    // With CTK unknown it is emptied and pushed anew, or closes.
    assert_eq!(
        fronts(&T, &present, 0, mask & !CLEAR_TASK, known),
        set(&[0])
    );
}

#[test]
fn refused_fillings_bring_none() {
    let screens = [1; 32];
    let full = session(1, &[(0, &screens)]);
    // A push onto 32 is refused, R7 and the new task of MTK are not.
    let mask = ALL_FLAGS & !NO_HISTORY;
    assert_eq!(fronts(&T, &full, 1, mask, 0), set(&[]));
    assert_eq!(fronts(&T, &full, 1, mask & !SINGLE_TOP, 0), set(&[1]));
    assert_eq!(
        fronts(&T, &full, 5, mask & !MULTIPLE_TASK, NEW_TASK),
        set(&[5])
    );
}

#[test]
fn the_caller_of_a_marked_front_closes() {
    let present = no_history(session(1, &[(0, &[2, 1, 0])]));
    let mask = ALL_FLAGS & !NO_HISTORY;
    // Lifted 0 over 1, and 2 gone; R7 keeps 2.
    assert_eq!(fronts(&T, &present, 0, mask, REORDER_TO_FRONT), set(&[0]));
    assert_eq!(fronts(&T, &present, 2, mask, 0), set(&[2]));
    // Single apart of the top itself: moved, and it closes.
    assert_eq!(fronts(&T, &present, 2, mask, NEW_TASK), set(&[1]));
}

#[test]
fn knowing_more_never_adds_and_no_history_changes_nothing() {
    let mut random = Random::new(12);
    let sessions = [
        session(2, &[(5, &[1, 5]), (0, &[0])]),
        session(3, &[(4, &[4]), (3, &[3, 5]), (0, &[1, 0])]),
        no_history(session(1, &[(0, &[2, 1, 0]), (3, &[3])])),
    ];
    for present in sessions {
        for _ in 0..300 {
            let screen = random.byte(6);
            let mask = flag_word(random.below(128) as u32);
            let value = random.next() as u32 & mask;
            let more = mask | flag_word(random.below(128) as u32);
            let values = value | random.next() as u32 & more & !mask;
            let asked = |mask, value| fronts(&T, &present, screen, mask, value).unwrap();
            assert!(asked(more, values).is_subset(&asked(mask, value)));
            let without = asked(mask & !NO_HISTORY, value & !NO_HISTORY);
            assert_eq!(asked(mask | NO_HISTORY, value | NO_HISTORY), without);
            assert!(without.len() <= 2);
        }
    }
}
