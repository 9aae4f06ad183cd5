//! A session and the calls on it.

use std::fmt;

use crate::raw;
use crate::{Answer, Edition, Flags, FrontSet, Reason, Refusal, Table};

/// A task of a session.
#[derive(Clone, Copy, Debug, PartialEq, Eq, Hash)]
pub struct Task<'a> {
    /// The screen that created it.
    pub root: u8,
    /// Its screens, bottom first: the last is its top.
    pub screens: &'a [u8],
}

/// A session under its table. Two are equal where table and session are; no
/// list of calls tells equal ones apart. Threads may share a `&Session`: look,
/// save, why and fronts lend the library a copy.
///
/// It shows its tasks, front first, as `root:[top,..,bottom]`, the main place,
/// its edition where that is not 8, and its No-History mark where it has one:
/// `3:[3] 0:[1,0], m 2, edition 7, no history`.
#[derive(Clone, PartialEq, Eq, Hash)]
pub struct Session {
    table: Table,
    stored: raw::Session,
}

impl Session {
    /// A fresh session: no task, and the edition of an empty session.
    #[must_use]
    pub fn new(table: Table) -> Session {
        Session {
            table,
            stored: raw::fresh(),
        }
    }

    /// The table.
    #[must_use]
    pub fn table(&self) -> &Table {
        &self.table
    }

    /// The tasks, front first.
    #[must_use]
    pub fn tasks(&self) -> impl DoubleEndedIterator<Item = Task<'_>> + ExactSizeIterator + Clone {
        tasks_of(&self.stored)
    }

    /// The place (from 1) of the task made by launch, 0 if it is gone.
    #[must_use]
    pub fn main_place(&self) -> u8 {
        self.stored.main
    }

    /// The edition: the one of its launch, or of the image that was restored,
    /// and Android 8.0 where the session is empty.
    #[must_use]
    pub fn edition(&self) -> Edition {
        Edition::given(self.stored.edition)
    }

    /// The No-History mark: the front screen was pushed or made new by a start
    /// with [`Flags::NO_HISTORY`]. The next start closes that screen, unless it
    /// is a plain one by R7.
    #[must_use]
    pub fn no_history(&self) -> bool {
        self.stored.no_history != 0
    }

    /// Launch: one task of the main screen alone, which is the main task. The
    /// session keeps the edition until it is empty or an image is restored.
    ///
    /// # Errors
    ///
    /// [`NotEmpty`](Refusal::NotEmpty).
    pub fn launch(&mut self, edition: Edition) -> Result<Answer, Refusal> {
        self.launch_byte(edition.number())
    }

    /// As [`launch`](Session::launch), with the edition as a recording has it:
    /// the screen byte of a launch record, in which 0 stands for 8.
    ///
    /// # Errors
    ///
    /// The first that applies: [`NotEmpty`](Refusal::NotEmpty),
    /// [`NoSuchEdition`](Refusal::NoSuchEdition).
    pub fn launch_byte(&mut self, edition: u8) -> Result<Answer, Refusal> {
        Answer::given(raw::launch(self.table.bytes(), &mut self.stored, edition))
    }

    /// Start of a screen, by the first of the rules R1 to R18 that fits in the
    /// session's edition. With the No-History mark it is done as a
    /// [`finish_start`](Session::finish_start), save where R7 fits: there
    /// nothing changes, the mark included.
    ///
    /// # Errors
    ///
    /// The first that applies: [`NoSuchScreen`](Refusal::NoSuchScreen),
    /// [`OtherFlag`](Refusal::OtherFlag), [`Empty`](Refusal::Empty), then
    /// [`TasksFull`](Refusal::TasksFull) or [`TaskFull`](Refusal::TaskFull).
    pub fn start(&mut self, screen: u8, flags: Flags) -> Result<Answer, Refusal> {
        let table = self.table.bytes();
        Answer::given(raw::start(table, &mut self.stored, screen, flags.bits()))
    }

    /// Finishing start: by the rules of a [`start`](Session::start), and then
    /// the screen that was in front is removed, if it still stands.
    ///
    /// # Errors
    ///
    /// Those of a start, before anything is removed.
    pub fn finish_start(&mut self, screen: u8, flags: Flags) -> Result<Answer, Refusal> {
        let (table, word) = (self.table.bytes(), flags.bits());
        Answer::given(raw::finish_start(table, &mut self.stored, screen, word))
    }

    /// A [`start`](Session::start) driven by the [flag chart](crate::chart).
    ///
    /// # Errors
    ///
    /// As [`start`](Session::start).
    pub fn start_by_chart(&mut self, screen: u8, flags: Flags) -> Result<Answer, Refusal> {
        let table = self.table.bytes();
        let given = raw::start_by_chart(table, &mut self.stored, screen, flags.bits());
        Answer::given(given)
    }

    /// A [`finish_start`](Session::finish_start) driven by the
    /// [flag chart](crate::chart).
    ///
    /// # Errors
    ///
    /// As [`start`](Session::start).
    pub fn finish_start_by_chart(&mut self, screen: u8, flags: Flags) -> Result<Answer, Refusal> {
        let table = self.table.bytes();
        let given = raw::finish_start_by_chart(table, &mut self.stored, screen, flags.bits());
        Answer::given(given)
    }

    /// Why a [`start`](Session::start), or a
    /// [`finish_start`](Session::finish_start), of this screen goes as it does:
    /// the rule that it uses, and the task that is found for it. The session
    /// stays.
    ///
    /// # Errors
    ///
    /// Those of the start.
    pub fn why(&self, screen: u8, flags: Flags) -> Result<Reason, Refusal> {
        let (table, word) = (self.table.bytes(), flags.bits());
        Reason::told(raw::why(table, &self.stored, screen, word))
    }

    /// Which screens could be in front after a [`start`](Session::start) of this
    /// screen of which only these flags are known, with these values. A screen
    /// is among them exactly where some filling of the other flags is accepted
    /// and brings it to the front; none is where the session is empty. The
    /// session stays.
    ///
    /// # Errors
    ///
    /// The first that applies: [`NoSuchScreen`](Refusal::NoSuchScreen),
    /// [`BadKnownFlags`](Refusal::BadKnownFlags).
    pub fn fronts(&self, screen: u8, known: Flags, values: Flags) -> Result<FrontSet, Refusal> {
        let (mask, value) = (known.bits(), values.bits());
        let table = self.table.bytes();
        FrontSet::told(raw::fronts(table, &self.stored, screen, mask, value))
    }

    /// Back: the front screen goes, and its task too if that was its last. The
    /// No-History mark is cleared.
    ///
    /// # Errors
    ///
    /// [`Empty`](Refusal::Empty).
    pub fn back(&mut self) -> Result<Answer, Refusal> {
        Answer::given(raw::back(self.table.bytes(), &mut self.stored))
    }

    /// Look: what is in front now.
    #[must_use]
    pub fn look(&self) -> Answer {
        Answer::given(raw::look(self.table.bytes(), &self.stored)).expect(NEVER)
    }

    /// Save: the session's image.
    #[must_use]
    pub fn save(&self) -> Vec<u8> {
        let mut image = vec![0; raw::IMAGE_MAX];
        let length = self.save_into(&mut image).expect(NEVER);
        image.truncate(length);
        image
    }

    /// Save at the start of a buffer: the image's length. The rest of the
    /// buffer stays.
    ///
    /// # Errors
    ///
    /// [`BufferShort`](Refusal::BufferShort).
    pub fn save_into(&self, buffer: &mut [u8]) -> Result<usize, Refusal> {
        let reply = raw::save(self.table.bytes(), &self.stored, buffer);
        Refusal::check(reply.refusal)?;
        Ok(reply.length)
    }

    /// Restore: the session of a whole image, with its edition and its
    /// No-History mark, in the place of the present one.
    ///
    /// # Errors
    ///
    /// The first that applies: [`ImageTrailer`](Refusal::ImageTrailer),
    /// [`ImageTasks`](Refusal::ImageTasks), then
    /// [`ImageUnsound`](Refusal::ImageUnsound).
    pub fn restore(&mut self, image: &[u8]) -> Result<Answer, Refusal> {
        Answer::given(raw::restore(self.table.bytes(), &mut self.stored, image))
    }
}

/// The table is good, the session was fresh, and calls keep it sound.
const NEVER: &str = "refused only where table or session are bad";

/// The tasks that are stored, front first.
#[inline]
pub(crate) fn tasks_of(
    stored: &raw::Session,
) -> impl DoubleEndedIterator<Item = Task<'_>> + ExactSizeIterator + Clone {
    let tasks = &stored.tasks[..usize::from(stored.n)];
    tasks.iter().map(|task| Task {
        root: task.root,
        screens: &task.screens[..usize::from(task.height)],
    })
}

impl fmt::Display for raw::Session {
    fn fmt(&self, f: &mut fmt::Formatter) -> fmt::Result {
        for (i, task) in tasks_of(self).enumerate() {
            let screens: Vec<String> = task.screens.iter().rev().map(u8::to_string).collect();
            let space = if i == 0 { "" } else { " " };
            write!(f, "{space}{}:[{}]", task.root, screens.join(","))?;
        }
        let comma = if self.n == 0 { "" } else { ", " };
        write!(f, "{comma}m {}", self.main)?;
        match Edition::given(self.edition) {
            Edition::Android8 => (),
            other => write!(f, ", edition {}", other.number())?,
        }
        if self.no_history != 0 {
            f.write_str(", no history")?;
        }
        Ok(())
    }
}

impl fmt::Display for Session {
    fn fmt(&self, f: &mut fmt::Formatter) -> fmt::Result {
        self.stored.fmt(f)
    }
}

impl fmt::Debug for Session {
    fn fmt(&self, f: &mut fmt::Formatter) -> fmt::Result {
        write!(f, "Session({self})")
    }
}
