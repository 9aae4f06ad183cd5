//! Makes a call on a container, or plays a list, by both, at the edges of memory, and
//! compares all that they give.

use std::fmt;

use second::hex::hex;
use second::panels::Container;
use second::Refusal;

use lent_calls::fault;
use lent_calls::memory::{Left, Memory};
use lent_calls::smaller;

use crate::cases::Counts;
use crate::library::Library;
use crate::stored::{Stored, CONTAINER};

/// The longest list of calls, and the most operations.
pub const LONGEST: usize = 4096;

/// What is asked of both.
#[derive(Clone, Debug)]
pub enum Asked {
    Step {
        held: Stored,
        recorded: u8,
        operations: Vec<u8>,
    },
    Back {
        held: Stored,
    },
    Play {
        list: Vec<u8>,
    },
}

/// The refusal's number, or of a list the container's bytes; and what is left of the
/// container and of the bytes that were lent.
pub type Given = Left<Vec<u8>, 2>;

pub struct Difference {
    what: &'static str,
    asked: Asked,
    library: Given,
    second: Given,
}

pub type Checked<T = ()> = Result<T, Box<Difference>>;

pub struct Checker<L> {
    library: L,
    memory: Memory<2>,
    pub counts: Counts,
    /// Calls of the library.
    pub calls: u64,
}

impl Asked {
    /// The container's bytes, if there is one, and the others.
    fn bytes(&self) -> [Vec<u8>; 2] {
        match self {
            Asked::Step {
                held, operations, ..
            } => [held.bytes().to_vec(), operations.clone()],
            Asked::Back { held } => [held.bytes().to_vec(), Vec::new()],
            Asked::Play { list } => [Vec::new(), list.clone()],
        }
    }
}

impl<L: Library> Checker<L> {
    pub fn new(library: L) -> Checker<L> {
        Checker {
            library,
            memory: Memory::new([CONTAINER, LONGEST]),
            counts: Counts::new(),
            calls: 0,
        }
    }

    /// Asks both; gives the container after it.
    pub fn check(&mut self, what: &'static str, asked: Asked) -> Checked<Stored> {
        let second = by_second(&asked);
        self.counts.add(&asked, &second);
        fault::begin_call(self.calls);
        self.calls += 1;
        if self.by_library(&asked) == second {
            return Ok(container_of(&second));
        }
        let differs = |asked: &Asked| self.by_library(asked) != by_second(asked);
        let asked = smaller::smallest(asked, fewer, differs);
        Err(Box::new(Difference {
            what,
            library: self.by_library(&asked),
            second: by_second(&asked),
            asked,
        }))
    }

    fn by_library(&mut self, asked: &Asked) -> Given {
        let Checker {
            library, memory, ..
        } = self;
        let [container, bytes] = asked.bytes();
        memory.lend([&container, &bytes], |[held, bytes]| match asked {
            Asked::Step { recorded, .. } => {
                vec![library.step(Stored::lent(held), *recorded, bytes)]
            }
            Asked::Back { .. } => vec![library.back(Stored::lent(held))],
            Asked::Play { .. } => library.play(bytes).bytes().to_vec(),
        })
    }
}

/// The container after what was asked.
fn container_of(given: &Given) -> Stored {
    let bytes = match given.bytes[0].is_empty() {
        true => &given.given,
        false => &given.bytes[0],
    };
    Stored::from_bytes(bytes[..].try_into().expect("a container's bytes"))
}

fn by_second(asked: &Asked) -> Given {
    let [_, bytes] = asked.bytes();
    let (given, held) = match asked {
        Asked::Step {
            held,
            recorded,
            operations,
        } => made_by_second(held, |container| container.step(*recorded != 0, operations)),
        Asked::Back { held } => made_by_second(held, Container::back),
        Asked::Play { list } => {
            let after = Stored::hold(&Container::play(list));
            (after.bytes().to_vec(), Vec::new())
        }
    };
    Left {
        given,
        bytes: [held, bytes],
        outside: false,
    }
}

/// The refusal's number, or 0, and the container's bytes. A refused call leaves each of
/// them.
fn made_by_second(
    held: &Stored,
    call: impl FnOnce(&mut Container) -> Result<(), Refusal>,
) -> (Vec<u8>, Vec<u8>) {
    let mut container = held.view();
    let (refusal, after) = match call(&mut container) {
        Ok(()) => (0, Stored::hold(&container)),
        Err(refusal) => (refusal as u8, *held),
    };
    (vec![refusal], after.bytes().to_vec())
}

/// The same with one operation, step, panel or byte fewer.
fn fewer(asked: &Asked) -> Vec<Asked> {
    match asked {
        Asked::Step {
            held,
            recorded,
            operations,
        } => {
            let containers = fewer_panels(held).into_iter().map(|held| Asked::Step {
                held,
                recorded: *recorded,
                operations: operations.clone(),
            });
            let steps = without_each(operations, 2).into_iter();
            let steps = steps.map(|operations| Asked::Step {
                held: *held,
                recorded: *recorded,
                operations,
            });
            containers.chain(steps).collect()
        }
        Asked::Back { held } => {
            let containers = fewer_panels(held).into_iter();
            containers.map(|held| Asked::Back { held }).collect()
        }
        Asked::Play { list } => {
            let lists = [4, 2, 1]
                .into_iter()
                .flat_map(|size| without_each(list, size));
            lists.map(|list| Asked::Play { list }).collect()
        }
    }
}

/// The bytes without each group of so many that begins at a multiple of that.
fn without_each(bytes: &[u8], size: usize) -> Vec<Vec<u8>> {
    let places = (0..bytes.len()).step_by(size);
    let end = |at: usize| bytes.len().min(at + size);
    places
        .map(|at| [&bytes[..at], &bytes[end(at)..]].concat())
        .collect()
}

/// The container with a step fewer, a panel fewer now, or none kept.
fn fewer_panels(held: &Stored) -> Vec<Stored> {
    let mut fewer = Vec::new();
    if let Some(steps) = held.steps.checked_sub(1) {
        fewer.push(Stored { steps, ..*held });
    }
    if let Some(count) = held.now.count.checked_sub(1) {
        let mut less = *held;
        less.now.count = count;
        fewer.push(less);
    }
    for at in 0..held.kept.len() {
        if held.kept[at].count > 0 {
            let mut less = *held;
            less.kept[at].count -= 1;
            fewer.push(less);
        }
    }
    fewer
}

impl fmt::Display for Difference {
    fn fmt(&self, f: &mut fmt::Formatter) -> fmt::Result {
        writeln!(f, "difference, found in: {}", self.what)?;
        let [container, bytes] = self.asked.bytes();
        match &self.asked {
            Asked::Step { recorded, .. } => writeln!(
                f,
                "step, recorded {recorded}, operations, hex: {}",
                hex(&bytes, 2)
            )?,
            Asked::Back { .. } => writeln!(f, "Back")?,
            Asked::Play { .. } => writeln!(f, "list, hex: {}", hex(&bytes, 1))?,
        }
        if !container.is_empty() {
            writeln!(f, "container, hex: {}", shown(&container))?;
        }
        for (name, given) in [("library", &self.library), ("second", &self.second)] {
            match given.given[..] {
                [refusal] => writeln!(f, "{name}: refusal {refusal}")?,
                _ => writeln!(f, "{name}: {}", shown(&given.given))?,
            }
            if !container.is_empty() {
                writeln!(f, "  container, hex: {}", shown(&given.bytes[0]))?;
            }
        }
        if self.library.bytes[1] != self.second.bytes[1] || self.library.outside {
            writeln!(f, "the library wrote outside")?;
        }
        Ok(())
    }
}

/// A container's bytes in hex: the panels now, the number of steps, the kept ones.
fn shown(container: &[u8]) -> String {
    let (now, rest) = container.split_at(9);
    format!(
        "{} {}",
        hex(now, 9),
        [hex(&rest[..1], 1), hex(&rest[1..], 9)].join(" ")
    )
}
