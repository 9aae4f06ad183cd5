//! What a support agent sees of a recording: its records in words, the stacks
//! after each, their difference from another's, and a picture.
//!
//! Everything known of tasks is asked of the proved library through the crate
//! `milchkompass`. What stands here reads and writes files, and finds words.
//!
//! - `arguments`, `synopsis`, `usage`: what a command is given, and its help
//! - `failure`: why a command ends without having done all, and what it warns of
//! - `memory`: where that ends
//! - `input`, `output`, `progress`: blocks in, blocks out, how far it is
//! - `opening`: the table at the start of a recording
//! - `names`: screens by name
//! - `words`: a record's call in words; `line`: the line of `show`; `pen`: quick
//!   writing
//! - `show`, `at`, `diff`: the commands of these names; `side`: one of two recordings
//! - `batches`: records that are played in one thread and shown in another
//! - `moments`: what `at` and `picture` are told of a record
//! - `text`: a recording as text; `grammar`, `cursor`: and back
//! - `fronts`: which screens could be in front where flags are missing
//! - `panels`: a text of steps and Backs, played on a container
//! - `picture`: the page; `whole_file`: where it is written
//! - `closed`: which screens a record closed
//! - `chart`: the flag chart

pub mod arguments;
pub mod at;
mod batches;
pub mod chart;
mod closed;
pub mod cursor;
pub mod diff;
pub mod failure;
pub mod fronts;
pub mod grammar;
pub mod input;
pub mod line;
pub mod memory;
pub mod moments;
pub mod names;
pub mod opening;
pub mod output;
pub mod panels;
pub mod pen;
pub mod picture;
pub mod progress;
pub mod show;
mod side;
mod synopsis;
pub mod text;
pub mod usage;
pub mod whole_file;
pub mod words;

/// The length of a record: kind, screen, flag word.
pub const RECORD: usize = 6;
