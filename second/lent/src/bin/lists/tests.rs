//! The comparison finds wrong libraries: in the static library's place stands the
//! second navigator, as it is or with one thing wrong.

use second::lists;
use second::Session;

use lent_calls::stored::Stored;

use crate::check::{played_by_second, Checker};
use crate::library::Library;

/// What the stand-in does wrong, if anything.
#[derive(Clone, Copy, Debug, PartialEq)]
enum Wrong {
    Nothing,
    RecordTakesSix,
    ImageNotCounted,
    LengthLowByteFirst,
    PlayTakesRestores,
    RestoreRefused,
    CutRestoreMade,
    UnknownKindAnswersRefusal1,
    RefusedCallStoresFresh,
    NothingStored,
    MarkForgotten,
    LastRecordLeftOut,
    CutRecordGoesOn,
    BadTableAlike,
    AlikeByTheFront,
    AlikeWithoutTheMark,
    AlikeWithoutRoots,
    AlikeWithoutTheEdition,
}

use Wrong::*;

const WRONG: [Wrong; 17] = [
    RecordTakesSix,
    ImageNotCounted,
    LengthLowByteFirst,
    PlayTakesRestores,
    RestoreRefused,
    CutRestoreMade,
    UnknownKindAnswersRefusal1,
    RefusedCallStoresFresh,
    NothingStored,
    MarkForgotten,
    LastRecordLeftOut,
    CutRecordGoesOn,
    BadTableAlike,
    AlikeByTheFront,
    AlikeWithoutTheMark,
    AlikeWithoutRoots,
    AlikeWithoutTheEdition,
];

struct StandIn(Wrong);

/// The list with the bytes of its first word turned round.
fn turned(list: &[u8]) -> Vec<u8> {
    let mut turned = list.to_vec();
    if let Some(word) = turned.get_mut(2..6) {
        word.reverse();
    }
    turned
}

/// A restore of what there is of a cut image.
fn completed(list: &[u8]) -> Vec<u8> {
    let mut completed = list.to_vec();
    if list.len() > 6 && list[0] == lists::RESTORE {
        let length = list.len() as u32 - 6;
        completed[2..6].copy_from_slice(&length.to_be_bytes());
    }
    completed
}

impl StandIn {
    fn is(&self, wrong: Wrong) -> bool {
        self.0 == wrong
    }

    /// A list's ending as it is compared.
    fn ending(&self, table: &[u8], list: &[u8]) -> Session {
        let mut list = list.to_vec();
        if self.is(LastRecordLeftOut) {
            list.truncate(list.len().saturating_sub(6));
        }
        if self.is(CutRecordGoesOn) {
            list.resize(list.len().next_multiple_of(6), 0);
        }
        let mut session = lists::ending(table, &list);
        if self.is(AlikeWithoutTheMark) {
            session.no_history = false;
        }
        if self.is(AlikeWithoutTheEdition) && !session.is_empty() {
            session.edition = 8;
        }
        if self.is(AlikeWithoutRoots) {
            session.tasks.iter_mut().for_each(|task| task.root = 0);
        }
        session
    }
}

impl Library for StandIn {
    fn record_length(&self, list: &[u8]) -> usize {
        match self.is(RecordTakesSix) {
            true => 6,
            false => lists::record_length(list),
        }
    }

    fn call_length(&self, list: &[u8]) -> usize {
        match self.0 {
            ImageNotCounted => lists::record_length(list),
            LengthLowByteFirst => lists::call_length(&turned(list)),
            _ => lists::call_length(list),
        }
    }

    fn play(&self, table: &[u8], session: &mut Stored, list: &[u8]) -> [u8; 9] {
        let play = match self.is(PlayTakesRestores) {
            true => lists::play_call,
            false => lists::play,
        };
        let (answer, after) = played_by_second(play, table, session, list);
        *session = after;
        answer
    }

    fn play_call(&self, table: &[u8], session: &mut Stored, list: &[u8]) -> [u8; 9] {
        let list = match self.0 {
            CutRestoreMade => completed(list),
            _ => list.to_vec(),
        };
        let play = match self.is(RestoreRefused) {
            true => lists::play,
            false => lists::play_call,
        };
        let (mut answer, mut after) = played_by_second(play, table, session, &list);
        match self.0 {
            UnknownKindAnswersRefusal1 if answer[0] == 9 => answer[0] = 1,
            RefusedCallStoresFresh if answer[0] != 0 => after = Stored::FRESH,
            NothingStored => after = *session,
            MarkForgotten => after.no_history = 0,
            _ => {}
        }
        *session = after;
        answer
    }

    fn same_ending(&self, table: &[u8], first: &[u8], second: &[u8]) -> [u8; 2] {
        if let Err(refusal) = lists::same_ending(table, &[], &[]) {
            return [refusal as u8, u8::from(self.is(BadTableAlike))];
        }
        let [one, other] = [first, second].map(|list| self.ending(table, list));
        let alike = match self.is(AlikeByTheFront) {
            true => one.answer(0) == other.answer(0),
            false => one == other,
        };
        [0, u8::from(alike)]
    }
}

/// What the comparison says of a stand-in.
fn found(wrong: Wrong, seed: u64) -> Option<String> {
    let mut checker = Checker::new(StandIn(wrong));
    let found = crate::compare(&mut checker, seed, 3000);
    found.err().map(|difference| difference.to_string())
}

#[test]
fn nothing_is_found_where_nothing_is_wrong() {
    assert_eq!(found(Nothing, 1), None);
}

#[test]
fn each_wrong_library_is_found() {
    for (seed, wrong) in (2..).zip(WRONG) {
        let said = found(wrong, seed).unwrap_or_else(|| panic!("{wrong:?} is not found"));
        assert!(said.starts_with("difference, found in: "), "{said}");
    }
}

#[test]
fn what_is_printed_is_small() {
    // A restore of one task of one screen with the mark, or a launch and two starts.
    let most = 6 * 3;
    let said = found(AlikeWithoutTheMark, 5).expect("a difference");
    let lists = said
        .lines()
        .filter_map(|line| line.split_once(" list, hex: "));
    for (_, list) in lists {
        let digits = list.chars().filter(|digit| *digit != ' ').count();
        assert!(digits <= 2 * most, "{said}");
    }
}

#[test]
fn every_case_comes_up() {
    let mut checker = Checker::new(StandIn(Nothing));
    assert!(crate::compare(&mut checker, 7, 5000).is_ok());
    assert_eq!(checker.counts.missing(), Vec::<String>::new());
}
