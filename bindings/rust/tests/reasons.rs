//! The reason of a start: each rule, on the stacks of document 01 and on others
//! under its table T, and each refusal of a start.

mod common;

use common::flags::{CTK, CTP, MTK, NONE, NTK, RTF, STP};
use common::{session, table_t};
use milchkompass::{Flags, Found, FoundBy, Reason, Refusal, Rule, Session};

const ROOT: FoundBy = FoundBy::Root;
const AFFINITY: FoundBy = FoundBy::Affinity;

/// The reason is this one, and the session stays.
fn told(before: &Session, screen: u8, flags: Flags, rule: Rule, found: Option<(u8, FoundBy)>) {
    let found = found.map(|(place, by)| Found { place, by });
    let after = before.clone();
    assert_eq!(
        after.why(screen, flags),
        Ok(Reason { rule, found }),
        "{screen} of {before}"
    );
    assert_eq!(&after, before);
}

#[test]
fn stacks() {
    let p1 = session(&[(0, &[2, 1, 0])], 1);
    told(&p1, 1, RTF, Rule::R9, None);
    told(&p1, 1, CTP, Rule::R8, None);
    told(&p1, 1, CTP | RTF, Rule::R8, None);
    told(&p1, 2, NONE, Rule::R7, None);
    let p4 = session(&[(4, &[4]), (3, &[3]), (0, &[1, 0])], 3);
    told(&p4, 1, NONE, Rule::R17, Some((3, AFFINITY)));
    told(&p4, 1, STP, Rule::R16, Some((3, AFFINITY)));
    let p6 = session(&[(5, &[1, 5]), (0, &[0])], 2);
    told(&p6, 5, NTK, Rule::R15, Some((1, ROOT)));
    let p7 = session(&[(3, &[3]), (0, &[0])], 2);
    told(&p7, 3, NTK | MTK, Rule::R4, Some((1, ROOT)));
    let p8 = session(&[(0, &[0])], 1);
    told(&p8, 0, NTK | CTK, Rule::R12, Some((1, ROOT)));
    told(&p8, 0, NTK | STP, Rule::R16, Some((1, ROOT)));
}

#[test]
fn the_other_rules() {
    let alone = session(&[(0, &[0])], 1);
    told(&alone, 4, NONE, Rule::R2, None);
    told(&alone, 3, NONE, Rule::R6, None);
    told(&alone, 1, NONE, Rule::R10, None);
    told(&alone, 1, NTK | MTK, Rule::R11, None);
    told(&alone, 1, NTK | CTP, Rule::R14, Some((1, AFFINITY)));
    told(&alone, 5, NTK, Rule::R18, None);
    let instance = session(&[(0, &[0]), (4, &[4])], 1);
    told(&instance, 4, NONE, Rule::R1, Some((2, ROOT)));
    let task = session(&[(0, &[0]), (3, &[3])], 1);
    told(&task, 3, CTK, Rule::R3, Some((2, ROOT)));
    let kin = session(&[(5, &[5]), (0, &[0])], 2);
    told(&kin, 3, NONE, Rule::R5, Some((1, AFFINITY)));
    let held = session(&[(0, &[2, 1, 0])], 1);
    told(&held, 1, NTK | CTP, Rule::R13, Some((1, AFFINITY)));
    let main = session(&[(0, &[1, 0])], 1);
    told(&main, 0, NTK, Rule::R17, Some((1, ROOT)));
}

/// Root comes before affinity, wherever the tasks stand.
#[test]
fn root_before_affinity() {
    let both = session(&[(5, &[5]), (0, &[0]), (3, &[5])], 2);
    told(&both, 3, NONE, Rule::R5, Some((3, ROOT)));
}

#[test]
fn refusals() {
    let fresh = Session::new(table_t());
    let other = Flags::from_bits_retain(1);
    assert_eq!(fresh.why(6, other), Err(Refusal::NoSuchScreen));
    assert_eq!(fresh.why(0, other), Err(Refusal::OtherFlag));
    assert_eq!(fresh.why(0, NONE), Err(Refusal::Empty));
    let task: (u8, &[u8]) = (0, &[0]);
    let tasks = session(&[task; 16], 1);
    assert_eq!(tasks.why(0, NTK | MTK), Err(Refusal::TasksFull));
    let screens = session(&[(0, &[0; 32])], 1);
    assert_eq!(screens.why(1, NONE), Err(Refusal::TaskFull));
}

/// The rule that is told displays its sentence, and the reason how the task was
/// found before it.
#[test]
fn sentence_of_a_start() {
    let p4 = session(&[(4, &[4]), (3, &[3]), (0, &[1, 0])], 3);
    let reason = p4.why(1, CTP).expect("accepted");
    assert_eq!(reason.rule, Rule::R13);
    assert_eq!(
        reason.rule.to_string(),
        "a task found for it holds the screen, and CLEAR_TOP is set: it comes to the front, \
         and what lay above the screen closes"
    );
    assert_eq!(
        reason.to_string(),
        format!("R13, found at place 3 by affinity: {}", reason.rule)
    );
    let alone = session(&[(0, &[0])], 1);
    let texts = [(0, NTK | STP), (1, NONE)].map(|(screen, flags)| {
        let reason = alone.why(screen, flags).expect("accepted");
        reason.to_string()
    });
    assert_eq!(
        texts[0],
        format!("R16, found at place 1 by root: {}", Rule::R16)
    );
    assert_eq!(texts[1], "R10: the screen opens on top of the front task");
}
