//! A second navigator: tasks, screens and Back, in ordinary Rust.
//!
//! It follows the paper on scope, with the requests that came after it, and
//! nothing else, so that it can be compared with a navigator that was made apart
//! from it. It proves nothing; it is meant to be plain enough to be checked
//! against the papers by reading.
//!
//! - `table`: the screen table, the launch modes, the flag word
//! - `session`: tasks and screens, soundness, the moves and the screens that they
//!   create and close, the answer
//! - `edition`: the editions 6, 7 and 8
//! - `rules`: launch, Back, start by R1 to R18, finishing start
//! - `reason`: the rule that a start uses and the task found, in four numbers
//! - `chart`: what the flags do, in a table of 512 entries
//! - `image`: the image of a session and how it is read back
//! - `fronts`: which screens a start could bring to the front, where flags are missing
//! - `calls`: every call with all its checks, from bytes to an answer
//! - `play`: the player, from standard input's format to lines, with or without
//!   the reasons under starts
//! - `lists`: lists of calls as bytes, with restores, and whether two end alike
//! - `load`: records made from a seed, which everybody can make again
//! - `tally`: what is kept of a list of answers, and the report of it
//! - `depth`: the depth report of a recording in the player's format
//! - `panels`: containers of panels, in no session
//! - `random`, `hex`, `closings`: random numbers and tables, bytes as text, counts
//!   of what was closed, for comparisons
//! - `no_affinity`, `by_edition`, `no_history`: how often screens of affinity 0 were
//!   started, how often each rule came up in each edition, and with the No-History
//!   flag or from such a front, likewise
//! - `cases`: how often named cases came up, likewise
//!
//! Two layers: the methods of `Session` want a good table and a sound session
//! and keep the session sound; the functions of `calls` check both first.

pub mod by_edition;
pub mod calls;
pub mod cases;
pub mod chart;
pub mod closings;
pub mod depth;
pub mod edition;
pub mod fronts;
pub mod hex;
pub mod image;
pub mod lists;
pub mod load;
pub mod no_affinity;
pub mod no_history;
pub mod panels;
pub mod play;
pub mod random;
pub mod reason;
pub mod rules;
pub mod session;
pub mod table;
pub mod tally;

pub use reason::Reason;
pub use rules::{Done, Rule};
pub use session::{Answer, Count, Screen, Session, Task};
pub use table::{Mode, Table};

/// Why a call is refused, by the paper's numbers.
#[derive(Clone, Copy, Debug, PartialEq, Eq, Hash, PartialOrd, Ord)]
#[repr(u8)]
pub enum Refusal {
    /// Table length wrong, or N not 1 to 64.
    TableLength = 1,
    /// Main screen not below N, or a mode above 3.
    TableContent = 2,
    /// Start of a screen that is not below N.
    NoSuchScreen = 3,
    /// A flag bit outside the seven.
    FlagBits = 4,
    /// Restore: not the length or the trailer of an image.
    ImageTrailer = 5,
    /// Restore: the bytes are not exactly n tasks.
    ImageTasks = 6,
    /// Restore: the session read is not sound under the table.
    ImageUnsound = 7,
    /// Save: the buffer is too short.
    BufferShort = 8,
    /// Player: unknown kind, or a cut record.
    BadRecord = 9,
    /// The session is not sound under the table.
    SessionUnsound = 20,
    /// Start or Back on an empty session.
    Empty = 21,
    /// Launch on a session that is not empty.
    NotEmpty = 22,
    /// A new task is needed and there are 16.
    TasksFull = 23,
    /// A push onto a task of 32.
    TaskFull = 24,
    /// Launch with an edition that is not kept.
    NoSuchEdition = 30,
    /// Tally: it is full, it is of no list of answers, or the height is above 32.
    NotTallied = 31,
    /// Load: the seed is 0.
    SeedZero = 32,
    /// Fronts: a bit of the mask outside the seven, or a value bit outside the mask.
    KnownBits = 35,
    /// Panels: a bad count or kind of operations, or a container with too many steps or
    /// panels.
    NotPanels = 36,
    /// Panels: an operation would make nine.
    PanelsFull = 37,
    /// Panels: a ninth recorded step, an unrecorded one over recorded ones, or Back with
    /// none.
    NoStep = 38,
}
