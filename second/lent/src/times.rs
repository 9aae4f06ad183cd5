//! The times of turns, for measuring programs.

use std::time::Instant;

/// Nanoseconds a call of each turn.
#[derive(Default)]
pub struct Times(Vec<f64>);

impl Times {
    /// Takes the time of a turn of so many calls.
    pub fn measure(&mut self, calls: usize, turn: impl FnOnce()) {
        let begun = Instant::now();
        turn();
        let nanoseconds = begun.elapsed().as_nanos() as f64;
        self.0.push(nanoseconds / calls as f64);
    }

    pub fn is_empty(&self) -> bool {
        self.0.is_empty()
    }

    pub fn best(&self) -> f64 {
        self.0.iter().copied().fold(f64::INFINITY, f64::min)
    }

    pub fn middle(&self) -> f64 {
        let mut sorted = self.0.clone();
        sorted.sort_by(f64::total_cmp);
        sorted[sorted.len() / 2]
    }
}
