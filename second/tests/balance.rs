//! Over any list of calls without accepted restores from a fresh session, the
//! screens created less the sum of the closed numbers are the screens standing.

mod common;

use second::by_edition::ByEdition;
use second::random::Random;
use second::table::{flag_word, FLAGS, MULTIPLE_TASK};
use second::{calls, Answer, Done, Reason, Refusal, Session, Table};

use common::{session, standing, T};

const LAUNCH: u8 = 1;
const START: u8 = 2;
const FINISHING_START: u8 = 3;
const BACK: u8 = 4;
const LOOK: u8 = 5;
const RESTORE: u8 = 6;

/// A call: its kind, the screen, in a launch the edition byte, and the flags. A
/// restore's four bytes are no image.
type Call = (u8, u8, u32);

/// A list of calls as it goes on: its session, and the sums along it.
struct List {
    bytes: Vec<u8>,
    table: Table,
    session: Session,
    created: usize,
    closed: usize,
}

impl List {
    fn fresh(bytes: Vec<u8>) -> List {
        List {
            table: Table::parse(&bytes).unwrap(),
            bytes,
            session: Session::fresh(),
            created: 0,
            closed: 0,
        }
    }

    /// Makes the next call; gives what was done if it was accepted.
    fn call(&mut self, call: Call) -> Option<Done> {
        let before = self.session.clone();
        let (result, after) = self.done(call);
        let answer = self.answered(call);
        match result {
            Ok(done) => {
                let rule = done.choice.map(|choice| choice.rule as u8);
                assert_eq!(done.count.created, created(call.0, rule, &before));
                assert_eq!(answer, after.answer(done.count.closed));
                self.created += usize::from(done.count.created);
            }
            Err(refusal) => assert_eq!(answer, Answer::refused(refusal)),
        }
        self.closed += usize::from(answer.closed);
        assert_eq!(self.session, after);
        assert_eq!(self.created - self.closed, standing(&self.session));
        result.ok()
    }

    /// What the call does, and to which session, by the rules alone.
    fn done(&self, (kind, screen, flags): Call) -> (Result<Done, Refusal>, Session) {
        let mut session = self.session.clone();
        let done = match kind {
            LAUNCH => session.launch(&self.table, screen),
            START => session.start(&self.table, screen, flags),
            FINISHING_START => session.finishing_start(&self.table, screen, flags),
            BACK => session.back(),
            LOOK => Ok(Done::default()),
            _ => Err(Refusal::ImageTrailer),
        };
        (done, session)
    }

    /// The answer of the call, which goes on in the list's session.
    fn answered(&mut self, (kind, screen, flags): Call) -> Answer {
        let (table, session) = (&self.bytes, &mut self.session);
        match kind {
            LAUNCH => calls::launch(table, session, screen),
            START => calls::start(table, session, screen, flags),
            FINISHING_START => calls::finishing_start(table, session, screen, flags),
            BACK => calls::back(table, session),
            LOOK => calls::look(table, session),
            _ => calls::restore(table, session, &flags.to_be_bytes()),
        }
    }
}

/// How many screens an accepted call creates, by the paper: one for launch, each
/// new task and each push, and by R9 where it empties the main task.
fn created(kind: u8, rule: Option<u8>, from: &Session) -> u8 {
    let (new, push) = ([2, 6, 11, 18], [3, 5, 10, 12, 14, 17]);
    match rule {
        Some(9) => u8::from(from.edition == 7 && from.main == 1),
        Some(rule) => u8::from(new.contains(&rule) || push.contains(&rule)),
        None => u8::from(kind == LAUNCH),
    }
}

/// A random call for a session that is empty or not. So many in a hundred starts
/// have no flag.
fn any_call(random: &mut Random, screens: u8, empty: bool, plain: u64) -> Call {
    let weights = [2, 60, 15, 15, 3, 3];
    let kind = match random.weighted(&weights) as u8 + 1 {
        _ if empty && random.percent(80) => LAUNCH,
        START if random.percent(plain) => return (START, random.byte(u16::from(screens)), 0),
        kind => kind,
    };
    if kind == LAUNCH {
        return (LAUNCH, random.edition_byte(), 0);
    }
    let flags = match random.below(4) {
        0 => random.one_of(&FLAGS),
        1 => random.next() as u32,
        2 => flag_word(random.byte(128).into()) & !MULTIPLE_TASK,
        _ => flag_word(random.byte(128).into()),
    };
    (kind, random.byte(u16::from(screens) + 1), flags)
}

#[test]
fn created_less_closed_are_standing() {
    let mut random = Random::new(2);
    let [mut starts, mut finishing]: [ByEdition; 2] = Default::default();
    for _ in 0..400 {
        let screens = random.between(1, 8) as u8;
        let affinities = random.one_of(&[1, 2, 3]);
        let modes = random.one_of(&[[1, 1, 1, 1], [6, 2, 2, 1], [8, 0, 1, 0]]);
        let mut list = List::fresh(random.table(screens, affinities, &modes));
        let plain = random.one_of(&[20, 80, 96]);
        for _ in 0..500 {
            let call = any_call(&mut random, screens, list.session.is_empty(), plain);
            let Session { edition, main, .. } = list.session;
            let Some(done) = list.call(call) else {
                continue;
            };
            let reason = done.choice.map(Reason::chosen);
            match (call.0, reason) {
                (START, Some(reason)) => starts.add(edition, main, reason),
                (FINISHING_START, Some(reason)) => finishing.add(edition, main, reason),
                (BACK, None) => assert_eq!(done.count.closed, 1),
                (_, reason) => assert_eq!((reason, done.count.closed), (None, 0)),
            }
        }
    }
    let never = [
        starts.missing("start"),
        finishing.missing("finishing start"),
    ]
    .concat();
    assert!(never.is_empty(), "never came up: {never:?}");
}

#[test]
fn an_accepted_restore_breaks_the_balance() {
    let image = session(1, &[(0, &[1, 0])]).image();
    let mut list = List::fresh(T.to_vec());
    list.call((LAUNCH, 0, 0));
    list.call((RESTORE, 0, 0));
    assert_eq!((list.created, list.closed), (1, 0));
    let answer = calls::restore(&T, &mut list.session, &image);
    assert_eq!(answer.numbers(), [0, 1, 0, 2, 1, 1, 0, 8, 0]);
    // Two stand, and one was created.
    assert_eq!(standing(&list.session), 2);
}
