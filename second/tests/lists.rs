//! Lists of calls as bytes, worked out by hand.

mod common;

use common::{session, EMPTY, T};
use second::lists::{call_length, ending, play, play_call, record_length, same_ending, told_apart};
use second::{Refusal, Session};

const LAUNCH: [u8; 6] = [1, 0, 0, 0, 0, 0];
const START_1: [u8; 6] = [2, 1, 0, 0, 0, 0];
const BACK: [u8; 6] = [4, 0, 0, 0, 0, 0];
const LOOK: [u8; 6] = [5, 0, 0, 0, 0, 0];
const UNKNOWN: [u8; 6] = [9, 0, 0, 0, 0, 0];
/// A restore of the main screen alone in its task: root, height and screen, then the
/// trailer.
const RESTORE: [u8; 15] = [6, 0, 0, 0, 0, 9, 0, 1, 0, 0, 3, 1, 1, 8, 0x42];
const BAD_RECORD: [u8; 9] = [9, 0, 0, 0, 0, 0, 0, 0, 0];

#[test]
fn a_record_takes_six_bytes_and_a_restore_its_image_too() {
    let list = [&LAUNCH[..], &RESTORE].concat();
    assert_eq!(call_length(&list), 6);
    assert_eq!(call_length(&list[6..]), 15);
    assert_eq!(record_length(&list[6..]), 6);
    for cut in 0..15 {
        assert_eq!(call_length(&RESTORE[..cut]), cut);
        assert_eq!(record_length(&RESTORE[..cut]), cut.min(6));
    }
}

#[test]
fn a_cut_restore_is_refused_and_a_whole_one_made() {
    let mut present = Session::fresh();
    for cut in 0..15 {
        let answer = play_call(&T, &mut present, &RESTORE[..cut]);
        assert_eq!(answer.numbers(), BAD_RECORD);
        assert_eq!(present, Session::fresh());
    }
    let answer = play_call(&T, &mut present, &RESTORE);
    assert_eq!(answer.numbers(), [0, 0, 0, 1, 1, 1, 0, 8, 0]);
    assert_eq!(present, session(1, &[(0, &[0])]));
}

#[test]
fn without_restores_kind_6_is_unknown() {
    let mut present = Session::fresh();
    assert_eq!(play(&T, &mut present, &RESTORE).numbers(), BAD_RECORD);
    assert_eq!(play(&T, &mut present, &LAUNCH[..5]).numbers(), BAD_RECORD);
    assert_eq!(play(&T, &mut present, &LOOK).numbers(), EMPTY);
}

#[test]
fn an_unknown_kind_comes_before_a_bad_table_and_an_unsound_session() {
    let mut unsound = session(2, &[(0, &[0])]);
    assert_eq!(play_call(&[], &mut unsound, &UNKNOWN).numbers(), BAD_RECORD);
    assert_eq!(play_call(&[], &mut unsound, &BACK).refusal, 1);
    assert_eq!(play_call(&T, &mut unsound, &RESTORE).refusal, 20);
}

#[test]
fn what_is_no_call_changes_no_ending_and_a_cut_record_ends_the_list() {
    let list = [&LAUNCH[..], &START_1].concat();
    let more = [&LAUNCH[..], &UNKNOWN, &START_1, &RESTORE[..14]].concat();
    assert_eq!(ending(&T, &list), session(1, &[(0, &[1, 0])]));
    assert_eq!(ending(&T, &more), ending(&T, &list));
    assert_eq!(same_ending(&T, &list, &more), Ok(true));
    // With more behind it, the restore takes the first byte of that for its image's last.
    let refused = [&more[..], &BACK].concat();
    assert_eq!(ending(&T, &refused), ending(&T, &list));
}

#[test]
fn endings_are_told_apart() {
    let one = [&LAUNCH[..], &START_1].concat();
    assert_eq!(same_ending(&T, &one, &LAUNCH), Ok(false));
    assert_eq!(same_ending(&T, &LAUNCH, &RESTORE), Ok(true));
    assert_eq!(
        same_ending(&T, &[], &[&LAUNCH[..], &BACK].concat()),
        Ok(true)
    );
    assert!(told_apart(&T, ending(&T, &one), ending(&T, &LAUNCH)));
    assert!(!told_apart(&T, ending(&T, &RESTORE), ending(&T, &LAUNCH)));
}

#[test]
fn a_bad_table_is_refused() {
    assert_eq!(
        same_ending(&[], &LAUNCH, &LAUNCH),
        Err(Refusal::TableLength)
    );
    let mut bad = T;
    bad[1] = 6;
    assert_eq!(same_ending(&bad, &[], &[]), Err(Refusal::TableContent));
}
