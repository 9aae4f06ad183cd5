//! What the picture is drawn from: plain values, with every word already found.

/// A whole recording, played.
#[derive(Clone, Debug, Default, PartialEq, Eq)]
pub struct Book {
    /// The heading of the page, such as the recording's file name.
    pub title: String,
    /// The screens of the table, by number.
    pub screens: Vec<ScreenRow>,
    /// The number of the table's main screen.
    pub main_screen: u8,
    /// Whether records before or behind these are left out.
    pub part: bool,
    /// The tasks that stand before the first moment.
    pub before: Vec<TaskView>,
    /// One moment a record, in order.
    pub moments: Vec<Moment>,
}

/// A screen of the table.
#[derive(Clone, Debug, Default, PartialEq, Eq)]
pub struct ScreenRow {
    /// Its name; empty where none is given.
    pub name: String,
    /// Its launch mode in words, such as `single-task`.
    pub mode: String,
    /// Its affinity; 0 is none.
    pub affinity: u8,
}

/// A record, and what stands after it.
#[derive(Clone, Debug, Default, PartialEq, Eq)]
pub struct Moment {
    /// The record's number; the first is 1.
    pub number: u64,
    /// The call in words.
    pub call: String,
    /// The refusal's number and words, where the call was refused.
    pub refusal: Option<String>,
    /// Rule, place and how in words; empty where there is none.
    pub reason: String,
    /// The number of the rule that moved it, 1 to 18; 0 where there is none.
    pub rule: u8,
    /// How many screens the record closed.
    pub closed: u8,
    /// Which, in the order of those that stood.
    pub gone: Vec<u8>,
    /// The tasks, front first. A refused record has those before it.
    pub tasks: Vec<TaskView>,
    /// The place of the main task, 1 for the front; 0 where it is gone.
    pub main: u8,
    /// The session's edition: 6, 7 or 8.
    pub edition: u8,
    /// Whether the front screen leaves no history.
    pub mark: bool,
}

/// A task.
#[derive(Clone, Debug, Default, PartialEq, Eq)]
pub struct TaskView {
    /// The screen that created it.
    pub root: u8,
    /// Its screens, top first.
    pub screens: Vec<u8>,
}
