//! The calls of the proved static library, made beside the second navigator's.
//!
//! - `library`: the static library's functions, as they are declared to C
//! - `stored`: sessions as the static library stores them
//! - `call`: a call with its arguments, made by either of the two
//! - `check`: makes a call by both and compares all that they give
//! - `counts`, `no_history`: how often each call was made, each refusal and rule came
//!   up, how many screens were closed, and how often there was a No-History front
//! - `sessions`, `damage`: random good and bad tables, sessions and images
//! - `starts`: random screens and flag words
//! - `memory`, `pages`, `fault`: bytes that are lent at the edges of memory, the pages
//!   there, and which call a fault came in
//! - `smaller`: smaller examples of a difference
//! - `sizes`, `times`: sessions that are measured, and the times of turns
//! - `run`: options and endings of the comparing programs
//!
//! Each program says at its head what it compares: `calls` all calls of one session,
//! `images`, `reasons`, `lists` and others some of them or what else there is; `fuzz`
//! makes calls on any bytes at the edges of memory, `calls_bench` measures.

pub mod call;
pub mod check;
pub mod counts;
pub mod damage;
pub mod fault;
pub mod library;
pub mod memory;
pub mod no_history;
pub mod pages;
pub mod run;
pub mod sessions;
pub mod sizes;
pub mod smaller;
pub mod starts;
pub mod stored;
pub mod times;
