//! The proved navigator for programs in Rust: tasks, launch modes, intent
//! flags, affinities and Back, on Android's terms.
//!
//! ```
//! use milchkompass::{Edition, Flags, LaunchMode, Refusal, Screen, Session, Table};
//!
//! # fn main() -> Result<(), Refusal> {
//! // Screen 0 is the main one; screen 2 lives in a task of its own.
//! let table = Table::new(0, &[
//!     Screen::new(LaunchMode::Standard, 1),
//!     Screen::new(LaunchMode::SingleTop, 1),
//!     Screen::new(LaunchMode::SingleTask, 2),
//! ])?;
//! let mut session = Session::new(table);
//! session.launch(Edition::Android8)?;
//! session.start(1, Flags::NONE)?;
//! let answer = session.start(2, Flags::NONE)?;
//! assert_eq!((answer.screen, answer.tasks), (2, 2));
//! assert_eq!(session.to_string(), "2:[2] 0:[1,0], m 2");
//!
//! // An image is the whole session: what is restored behaves alike ever after.
//! let image = session.save();
//! session.finish_start(1, Flags::NEW_TASK | Flags::SINGLE_TOP)?;
//! assert_eq!(session.to_string(), "0:[1,0], m 1");
//! session.restore(&image)?;
//!
//! // A refused call says why, and changes nothing.
//! assert_eq!(session.launch(Edition::Android8), Err(Refusal::NotEmpty));
//! assert_eq!(session.back()?.screen, 1);
//! # Ok(())
//! # }
//! ```
//!
//! Every rule and every check is the static library's, which is proved for all
//! inputs. This crate decides nothing: it lends its session to the library and
//! names the numbers that come back. It is not proved itself; it is tested.
//!
//! The library is libmilchkompass.a, which `bindings/library` makes in the
//! checkout; `MILCHKOMPASS_LIB_DIR` names another folder of it.

#![deny(missing_debug_implementations)]
#![warn(missing_docs)]

mod answer;
mod container;
mod chart;
mod edition;
mod flags;
mod fronts;
mod launch_mode;
mod load;
mod raw;
mod reason;
mod recording;
mod refusal;
mod replay;
mod session;
mod table;
mod tally;
mod unknown;

pub use answer::Answer;
pub use container::{Container, Operation};
pub use chart::chart;
pub use edition::Edition;
pub use flags::Flags;
pub use fronts::FrontSet;
pub use launch_mode::LaunchMode;
pub use load::Load;
pub use raw::IMAGE_MAX;
pub use reason::{Found, FoundBy, Reason, Rule};
pub use recording::Recording;
pub use refusal::Refusal;
pub use replay::{same_ending, Played, Replay, Row};
pub use session::{Session, Task};
pub use table::{Screen, Table};
pub use tally::{Report, Tally};
pub use unknown::{UnknownName, UnknownNumber};
