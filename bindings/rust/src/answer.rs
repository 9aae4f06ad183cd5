//! What a call answers.

use std::fmt;

use crate::raw;
use crate::{Edition, Refusal};

/// What an accepted call leaves in front, all zeros where the session is empty,
/// how many screens it closed, and the session's edition and No-History mark.
#[derive(Clone, Copy, Debug, Default, PartialEq, Eq, Hash)]
pub struct Answer {
    /// The front screen.
    pub screen: u8,
    /// The screen that created the front task.
    pub root: u8,
    /// How many screens the front task has.
    pub height: u8,
    /// How many tasks there are.
    pub tasks: u8,
    /// The place (from 1) of the task made by launch, 0 if it is gone.
    pub main: u8,
    /// How many screens the call closed; 0 for launch, look and restore.
    pub closed: u8,
    /// The session's edition after the call, Android 8.0 where it is empty.
    pub edition: Edition,
    /// The session's No-History mark after the call, as
    /// [`Session::no_history`](crate::Session::no_history) gives it.
    pub no_history: bool,
}

impl Answer {
    /// The session is empty: no screen is in front.
    #[must_use]
    pub const fn is_empty(self) -> bool {
        self.tasks == 0
    }

    /// The answer that the library gave, or its refusal.
    pub(crate) fn given(answer: raw::Answer) -> Result<Answer, Refusal> {
        Refusal::check(answer.refusal)?;
        Ok(Answer {
            screen: answer.screen,
            root: answer.root,
            height: answer.height,
            tasks: answer.tasks,
            main: answer.main,
            closed: answer.closed,
            edition: Edition::given(answer.edition),
            no_history: answer.no_history != 0,
        })
    }
}

/// Its nine numbers, as the player prints them behind the kind, the first of them
/// 0 since it is accepted: `0 3 3 1 2 2 0 8 0`.
impl fmt::Display for Answer {
    fn fmt(&self, f: &mut fmt::Formatter) -> fmt::Result {
        let Answer {
            screen,
            root,
            height,
            tasks,
            main,
            closed,
            edition,
            no_history,
        } = *self;
        let (edition, mark) = (edition.number(), u8::from(no_history));
        write!(
            f,
            "0 {screen} {root} {height} {tasks} {main} {closed} {edition} {mark}"
        )
    }
}
