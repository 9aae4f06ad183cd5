//! Which entries were reached by accepted starts, and which refusals came up.

use std::fmt;

use second::chart::{self, ENTRIES};
use second::edition::{EDITIONS, SIX};
use second::Table;

use crate::check::Asked;

const KINDS: [&str; 2] = ["start", "finishing start"];
const FRONTS: [&str; 2] = ["another", "a No-History"];
const REFUSALS: [u8; 9] = [0, 1, 2, 3, 4, 20, 21, 23, 24];

pub struct Counts {
    /// Accepted starts by kind, edition less 6, front and index.
    reached: [[[[u64; ENTRIES]; 2]; 3]; 2],
    /// Starts by kind and refusal.
    refusals: [[u64; 25]; 2],
}

impl Default for Counts {
    fn default() -> Counts {
        Counts {
            reached: [[[[0; ENTRIES]; 2]; 3]; 2],
            refusals: [[0; 25]; 2],
        }
    }
}

impl Counts {
    pub fn add(&mut self, asked: &Asked, refusal: u8) {
        let kind = usize::from(asked.finishing);
        self.refusals[kind][usize::from(refusal)] += 1;
        if refusal == 0 {
            let edition = usize::from(asked.session.edition - SIX);
            let front = usize::from(asked.session.no_history);
            self.reached[kind][edition][front][index(asked)] += 1;
        }
    }

    /// The names of what never came up.
    pub fn missing(&self) -> Vec<String> {
        let mut names = Vec::new();
        for (kind, name) in KINDS.into_iter().enumerate() {
            for (edition, by_front) in EDITIONS.iter().zip(&self.reached[kind]) {
                for (front, by_index) in FRONTS.iter().zip(by_front) {
                    let never = (0..ENTRIES).filter(|&index| by_index[index] == 0);
                    names.extend(never.map(|index| {
                        format!("entry {index} by a {name} in {edition} from {front} front")
                    }));
                }
            }
            for refusal in REFUSALS {
                if self.refusals[kind][usize::from(refusal)] == 0 {
                    names.push(format!("{refusal} by a {name}"));
                }
            }
        }
        names
    }
}

/// The index of an accepted start.
fn index(asked: &Asked) -> usize {
    let table = Table::parse(&asked.table).expect("the start is accepted");
    let front = &asked.session.tasks[0];
    let caller = front.screens[usize::from(front.height) - 1];
    let asked = chart::Asked {
        mode: table.mode(asked.screen),
        apart_caller: table.is_single_instance(caller),
        flags: asked.flags,
    };
    usize::from(asked.index())
}

impl fmt::Display for Counts {
    fn fmt(&self, f: &mut fmt::Formatter) -> fmt::Result {
        writeln!(
            f,
            "each entry by accepted starts, the least and the most often:"
        )?;
        for (kind, name) in KINDS.into_iter().enumerate() {
            for (edition, by_front) in EDITIONS.iter().zip(&self.reached[kind]) {
                for (front, by_index) in FRONTS.iter().zip(by_front) {
                    let (least, most) = (by_index.iter().min(), by_index.iter().max());
                    let (least, most) = (least.unwrap_or(&0), most.unwrap_or(&0));
                    let who = format!("{name} in {edition} from {front} front");
                    writeln!(f, "{who:<45} {least:>9} {most:>9}")?;
                }
            }
        }
        writeln!(f, "refusal {:>14} {:>15}", KINDS[0], KINDS[1])?;
        for refusal in REFUSALS {
            let [plain, finishing] = [0, 1].map(|kind| self.refusals[kind][usize::from(refusal)]);
            writeln!(f, "{refusal:<7} {plain:>14} {finishing:>15}")?;
        }
        Ok(())
    }
}
