//! Long random walks: the session stays sound, a refused call leaves it as it
//! was, images come back, marks of callers are gone after every call, affinity 0
//! finds no task, the edition is kept until the session is empty, the front is a
//! No-History one where it is to be, and the calls with all their checks agree with
//! the player.

use second::play::Player;
use second::table::{ALL_FLAGS, NO_HISTORY};
use second::{calls, Answer, Mode, Reason, Session, Table};

struct Random(u64);

impl Random {
    fn next(&mut self) -> u32 {
        self.0 = self
            .0
            .wrapping_mul(6364136223846793005)
            .wrapping_add(1442695040888963407);
        (self.0 >> 33) as u32
    }

    fn below(&mut self, n: u32) -> u8 {
        (self.next() % n) as u8
    }

    /// A random set of the seven flags, bits spread as in the flag word.
    fn flags(&mut self) -> u32 {
        (self.next() ^ self.next() << 16) & ALL_FLAGS
    }
}

/// A call: its kind, the screen, in a launch the edition byte, and the flags.
type Call = (u8, u8, u32);

/// A random call; on an empty session it is a launch.
fn any_call(random: &mut Random, n: u8, empty: bool) -> Call {
    let kind = if empty {
        1
    } else {
        [1, 2, 2, 2, 3, 4, 5][usize::from(random.below(7))]
    };
    // Of the edition bytes 9 is refused.
    let screen = match kind {
        1 => [0, 6, 7, 8, 9][usize::from(random.below(5))],
        _ => random.below(u32::from(n) + 1),
    };
    let flags = if random.below(2) == 0 {
        0
    } else {
        random.flags()
    };
    (kind, screen, flags)
}

fn made(table: &[u8], session: &mut Session, (kind, screen, flags): Call) -> Answer {
    match kind {
        1 => calls::launch(table, session, screen),
        2 => calls::start(table, session, screen, flags),
        3 => calls::finishing_start(table, session, screen, flags),
        4 => calls::back(table, session),
        _ => calls::look(table, session),
    }
}

/// Found by affinity: the screen's and the root's, and not 0. Found by root in
/// edition 6: a single-instance screen, or a single-task one of affinity 0.
fn check_found(table: &Table, before: &Session, screen: u8, why: Reason) {
    if why.found == 2 {
        let root = before.tasks[usize::from(why.place) - 1].root;
        assert_ne!(table.affinity(screen), 0);
        assert_eq!(table.affinity(screen), table.affinity(root));
    }
    if why.found == 1 && before.edition == 6 {
        let house = table.mode(screen) == Mode::SingleTask && table.affinity(screen) == 0;
        assert!(house || why.rule == 1);
    }
}

/// The edition that a session has after a call.
fn edition(before: &Session, after: &Session, (kind, byte, _): Call, refusal: u8) -> u8 {
    match (kind, byte) {
        _ if after.is_empty() => 8,
        (1, 0) if refusal == 0 => 8,
        (1, named) if refusal == 0 => named,
        _ => before.edition,
    }
}

/// Whether the front is a No-History one after a call.
fn no_history(before: &Session, (kind, _, flags): Call, refusal: u8, why: Option<Reason>) -> bool {
    let rule = why.map_or(0, |why| why.rule);
    let created = match rule {
        9 => before.edition == 7 && before.main == 1,
        _ => [2, 3, 5, 6, 10, 11, 12, 14, 17, 18].contains(&rule),
    };
    let kept = refusal != 0 || kind == 5 || (kind == 2 && rule == 7);
    match kept {
        true => before.no_history,
        false => created && flags & NO_HISTORY != 0,
    }
}

/// What holds after each call.
fn check(
    bytes: &[u8],
    table: &Table,
    before: &Session,
    after: &Session,
    call: Call,
    answer: Answer,
) {
    assert!(after.is_sound(table));
    assert_eq!(after.edition, edition(before, after, call, answer.refusal));
    if answer.refusal != 0 {
        assert_eq!(after, before);
    } else {
        assert_eq!(answer, after.answer(answer.closed));
        assert_eq!(calls::look(bytes, after), after.answer(0));
    }
    // An image holds no marks of callers, so equality with it shows there are none.
    let mut back = Session::fresh();
    let restored = calls::restore(bytes, &mut back, &after.image());
    assert_eq!(restored, after.answer(0));
    assert_eq!(&back, after);
}

#[test]
fn walks() {
    let mut random = Random(1);
    for round in 0..200 {
        let n = 1 + random.below(8);
        let affinities = 1 + u32::from(random.below(4));
        let mut bytes = vec![n, random.below(u32::from(n))];
        for _ in 0..n {
            bytes.extend([random.below(4), random.below(affinities)]);
        }
        let mut player = Player::open(&mut &bytes[..]).unwrap().unwrap();
        let table = player.table.clone().unwrap();
        let mut session = Session::fresh();
        for _ in 0..500 {
            let call = any_call(&mut random, n, session.is_empty());
            let (kind, screen, flags) = call;
            let before = session.clone();
            let answer = made(&bytes, &mut session, call);
            let record = [&[kind, screen][..], &flags.to_be_bytes()].concat();
            let played = player.record(&record);
            assert_eq!(answer, played.answer, "round {round}");
            assert_eq!(session, player.session);
            check(&bytes, &table, &before, &session, call, answer);
            // The start tells what it did, why what it would do.
            let is_start = kind == 2 || kind == 3;
            let why = is_start.then(|| calls::why(&bytes, &before, screen, flags));
            assert_eq!(played.reason, why);
            if let Some(why) = why {
                match answer.refusal {
                    0 => assert!(why.refusal == 0 && why.rule >= 1),
                    refusal => assert_eq!(why.numbers(), [refusal, 0, 0, 0]),
                }
                check_found(&table, &before, screen, why);
            }
            let front = no_history(&before, call, answer.refusal, why);
            assert_eq!(session.no_history, front);
        }
    }
}
