//! Plays the first record of a list by both, or asks both whether two lists end
//! alike, and compares.

use std::fmt;
use std::hint::black_box;

use second::hex::hex;
use second::lists;
use second::session::Answer;
use second::Session;

use lent_calls::check::{guarded, guards_stand, inside, Guarded};
use lent_calls::stored::{Stored, TASK};

use crate::cases::{Counts, Pair, Step};
use crate::library::Library;
use crate::smaller;

/// The first record of a list, on a session.
#[derive(Clone)]
pub struct Played {
    pub table: Vec<u8>,
    pub session: Stored,
    pub list: Vec<u8>,
}

/// Two lists, each from a fresh session.
#[derive(Clone)]
pub struct Ended {
    pub table: Vec<u8>,
    pub lists: [Vec<u8>; 2],
}

/// What is asked of both.
#[derive(Clone)]
pub enum Asked {
    Play(Box<Played>),
    End(Ended),
}

/// What comes of it.
#[derive(PartialEq)]
enum Given {
    Play {
        /// The lengths, without and with restores.
        lengths: [usize; 2],
        /// The answers and the sessions, likewise.
        answers: [[u8; 9]; 2],
        sessions: Box<[Stored; 2]>,
    },
    /// The refusal, and 1 where they end alike.
    End([u8; 2]),
}

pub struct Difference {
    what: &'static str,
    asked: Asked,
    library: Given,
    /// Whether the library wrote outside of what it may write.
    outside: bool,
    second: Given,
}

pub type Checked<T = ()> = Result<T, Box<Difference>>;

pub struct Checker<L> {
    library: L,
    pub counts: Counts,
    /// Calls of the library.
    pub calls: u64,
}

impl<L: Library> Checker<L> {
    pub fn new(library: L) -> Checker<L> {
        Checker {
            library,
            counts: Counts::new(),
            calls: 0,
        }
    }

    /// Plays a record by both; gives the session after it.
    pub fn play(&mut self, what: &'static str, played: Played) -> Checked<Session> {
        let mut session = played.session.view();
        let answer = lists::play_call(&played.table, &mut session, &played.list);
        self.counts.steps.add(&Step::new(&played, &answer));
        self.calls += 4;
        self.compare(what, Asked::Play(Box::new(played)))?;
        Ok(session)
    }

    /// Asks both whether two lists end alike.
    pub fn end(&mut self, what: &'static str, ended: Ended) -> Checked {
        let pair = Pair::new(&ended);
        assert!(
            pair.alike() != pair.told_apart,
            "equal images are those that no look and Back tells apart"
        );
        self.counts.pairs.add(&pair);
        self.calls += 1;
        self.compare(what, Asked::End(ended))
    }

    /// A difference is given with the smallest example of it that is found.
    fn compare(&self, what: &'static str, asked: Asked) -> Checked {
        if !self.differs(&asked) {
            return Ok(());
        }
        let asked = smaller::smallest(asked, |fewer| self.differs(fewer));
        let (library, outside) = by_library(&self.library, &asked);
        Err(Box::new(Difference {
            what,
            library,
            outside,
            second: by_second(&asked),
            asked,
        }))
    }

    fn differs(&self, asked: &Asked) -> bool {
        let (library, outside) = by_library(&self.library, asked);
        outside || library != by_second(asked)
    }
}

/// What the library gives, and whether it wrote outside of what it may write.
fn by_library(library: &impl Library, asked: &Asked) -> (Given, bool) {
    match asked {
        Asked::Play(played) => {
            let Played {
                table,
                session,
                list,
            } = &**played;
            let mut lent = [Guarded::new(*session), Guarded::new(*session)];
            let ((lengths, answers), kept) = lending([table, list], |[table, list]| {
                let [plain, whole] = &mut lent;
                (
                    [library.record_length(list), library.call_length(list)],
                    [
                        library.play(table, &mut plain.session, list),
                        library.play_call(table, &mut whole.session, list),
                    ],
                )
            });
            let kept = kept && lent.iter().all(Guarded::stands);
            let sessions = Box::new(lent.map(|lent| lent.session));
            (
                Given::Play {
                    lengths,
                    answers,
                    sessions,
                },
                !kept,
            )
        }
        Asked::End(Ended { table, lists }) => {
            let [first, second] = lists;
            let (given, kept) = lending([table, first, second], |[table, first, second]| {
                library.same_ending(table, first, second)
            });
            (Given::End(given), !kept)
        }
    }
}

/// Passes copies of these bytes; gives what comes of it, and whether the copies and
/// the bytes around them were kept.
fn lending<T, const N: usize>(
    bytes: [&Vec<u8>; N],
    call: impl FnOnce([&[u8]; N]) -> T,
) -> (T, bool) {
    let copies = bytes.map(|bytes| guarded(bytes));
    let given = call(copies.each_ref().map(|copy| &copy[inside(copy)]));
    // What the library may only read is looked at anew.
    let copies = black_box(&copies);
    let kept = (copies.iter().zip(bytes))
        .all(|(copy, bytes)| guards_stand(copy) && copy[inside(copy)] == **bytes);
    (given, kept)
}

/// What the second navigator gives.
fn by_second(asked: &Asked) -> Given {
    match asked {
        Asked::Play(played) => {
            let Played {
                table,
                session,
                list,
            } = &**played;
            let plain = played_by_second(lists::play, table, session, list);
            let whole = played_by_second(lists::play_call, table, session, list);
            Given::Play {
                lengths: [lists::record_length(list), lists::call_length(list)],
                answers: [plain.0, whole.0],
                sessions: Box::new([plain.1, whole.1]),
            }
        }
        Asked::End(Ended { table, lists }) => {
            let [first, second] = lists;
            Given::End(match lists::same_ending(table, first, second) {
                Ok(alike) => [0, u8::from(alike)],
                Err(refusal) => [refusal as u8, 0],
            })
        }
    }
}

/// The answer, and the session stored anew. A refused call leaves each byte.
pub fn played_by_second(
    play: fn(&[u8], &mut Session, &[u8]) -> Answer,
    table: &[u8],
    stored: &Stored,
    list: &[u8],
) -> ([u8; 9], Stored) {
    let mut session = stored.view();
    let answer = play(table, &mut session, list);
    let after = match answer.refusal {
        0 => Stored::hold(&session).expect("a sound session can be stored"),
        _ => *stored,
    };
    (answer.numbers(), after)
}

impl fmt::Display for Difference {
    fn fmt(&self, f: &mut fmt::Formatter) -> fmt::Result {
        writeln!(f, "difference, found in: {}", self.what)?;
        write!(f, "{}", self.asked)?;
        write!(f, "library: {}", self.library)?;
        if self.outside {
            writeln!(f, "  and wrote outside")?;
        }
        write!(f, "second: {}", self.second)
    }
}

impl fmt::Display for Asked {
    fn fmt(&self, f: &mut fmt::Formatter) -> fmt::Result {
        match self {
            Asked::Play(played) => {
                writeln!(f, "table, hex: {}", hex(&played.table, 1))?;
                writeln!(f, "session, hex: {}", hex(&played.session.bytes(), TASK))?;
                writeln!(f, "list, hex: {}", hex(&played.list, 6))
            }
            Asked::End(Ended { table, lists }) => {
                writeln!(f, "table, hex: {}", hex(table, 1))?;
                writeln!(f, "first list, hex: {}", hex(&lists[0], 6))?;
                writeln!(f, "second list, hex: {}", hex(&lists[1], 6))
            }
        }
    }
}

impl fmt::Display for Given {
    fn fmt(&self, f: &mut fmt::Formatter) -> fmt::Result {
        match self {
            Given::Play {
                lengths,
                answers,
                sessions,
            } => {
                writeln!(f, "without restores and with them")?;
                for ((length, answer), session) in lengths.iter().zip(answers).zip(&**sessions) {
                    writeln!(f, "  length {length}, answer {answer:?}")?;
                    writeln!(f, "  session, hex: {}", hex(&session.bytes(), TASK))?;
                }
                Ok(())
            }
            Given::End([refusal, alike]) => writeln!(f, "refusal {refusal}, alike {alike}"),
        }
    }
}
