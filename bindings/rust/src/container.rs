//! Panels inside a screen.

use std::fmt;

use crate::raw;
use crate::Refusal;

/// One operation of a step, on a panel.
#[derive(Clone, Copy, Debug, PartialEq, Eq, Hash)]
pub enum Operation {
    /// The panel is added on top.
    Add(u8),
    /// The topmost copy of the panel is removed; nothing happens where there is
    /// none.
    Remove(u8),
    /// All panels are removed, and this one is added.
    Replace(u8),
}

/// A container of panels, with up to 8 panels and up to 8 recorded steps.
///
/// ```
/// use milchkompass::{Container, Operation::*, Refusal};
///
/// # fn main() -> Result<(), Refusal> {
/// let mut container = Container::new();
/// container.step(false, &[Add(4)])?;
/// container.step(true, &[Add(5), Add(4)])?;
/// assert_eq!(container.panels(), [4, 5, 4]);
/// container.step(true, &[Remove(4)])?;
/// assert_eq!(container.to_string(), "[4,5], 2 recorded");
///
/// // Back undoes the last recorded step.
/// container.back()?;
/// assert_eq!((container.panels(), container.steps()), (&[4, 5, 4][..], 1));
///
/// // A refused call says why, and changes nothing.
/// let refused = container.step(false, &[Replace(1)]);
/// assert_eq!(refused, Err(Refusal::StepOutOfPlace));
/// # Ok(())
/// # }
/// ```
#[derive(Clone, Copy, PartialEq, Eq, Hash)]
pub struct Container {
    stored: raw::Container,
}

impl Operation {
    /// Its kind, and its panel.
    const fn bytes(self) -> [u8; 2] {
        match self {
            Operation::Add(panel) => [1, panel],
            Operation::Remove(panel) => [2, panel],
            Operation::Replace(panel) => [3, panel],
        }
    }
}

impl Container {
    /// A container without panels and without steps.
    #[must_use]
    pub const fn new() -> Container {
        let none = raw::Panels {
            count: 0,
            panels: [0; 8],
        };
        Container {
            stored: raw::Container {
                now: none,
                steps: 0,
                kept: [none; 8],
            },
        }
    }

    /// Carries out a step of 1 to 4 operations, one after the other. A recorded
    /// step keeps the panels that it found; another is carried out only where
    /// nothing is recorded, and can never be undone.
    ///
    /// # Errors
    ///
    /// [`BadStepOrContainer`](Refusal::BadStepOrContainer) if the operations are
    /// not 1 to 4, [`PanelsFull`](Refusal::PanelsFull) if one of them would make
    /// nine panels, and [`StepOutOfPlace`](Refusal::StepOutOfPlace) if it is a ninth
    /// recorded step, or unrecorded over recorded ones; in this sequence. The
    /// container is kept.
    ///
    /// # Panics
    ///
    /// If the library has another interface than this crate.
    pub fn step(&mut self, recorded: bool, operations: &[Operation]) -> Result<(), Refusal> {
        let bytes: Vec<u8> = operations.iter().flat_map(|o| o.bytes()).collect();
        Refusal::check(raw::container_step(&mut self.stored, recorded, &bytes))
    }

    /// Undoes the last recorded step: the panels that it found are back.
    ///
    /// # Errors
    ///
    /// [`StepOutOfPlace`](Refusal::StepOutOfPlace) if none is recorded.
    ///
    /// # Panics
    ///
    /// As [`step`](Container::step).
    pub fn back(&mut self) -> Result<(), Refusal> {
        Refusal::check(raw::container_back(&mut self.stored))
    }

    /// The panels, bottom first.
    #[must_use]
    pub fn panels(&self) -> &[u8] {
        let now = &self.stored.now;
        &now.panels[..usize::from(now.count)]
    }

    /// How many steps are recorded.
    #[must_use]
    pub fn steps(&self) -> usize {
        usize::from(self.stored.steps)
    }

    /// The container after a list of calls, made one after the other from a new
    /// one; a refused call changes nothing. A call is a kind (1 a step, 2 a
    /// recorded step, 3 Back), a count n and 2n bytes: the operations of a step,
    /// kind and panel in turn, which Back passes over. An unknown kind is no call,
    /// and a call that is cut ends the list.
    ///
    /// # Panics
    ///
    /// As [`step`](Container::step).
    #[must_use]
    pub fn play(calls: &[u8]) -> Container {
        Container {
            stored: raw::container_play(calls),
        }
    }
}

impl Default for Container {
    fn default() -> Container {
        Container::new()
    }
}

/// `add 3`
impl fmt::Display for Operation {
    fn fmt(&self, f: &mut fmt::Formatter) -> fmt::Result {
        match self {
            Operation::Add(panel) => write!(f, "add {panel}"),
            Operation::Remove(panel) => write!(f, "remove {panel}"),
            Operation::Replace(panel) => write!(f, "replace {panel}"),
        }
    }
}

/// `[4,5], 2 recorded`: the panels bottom first, and how many steps are recorded
impl fmt::Display for Container {
    fn fmt(&self, f: &mut fmt::Formatter) -> fmt::Result {
        let panels: Vec<String> = self.panels().iter().map(u8::to_string).collect();
        write!(f, "[{}], {} recorded", panels.join(","), self.steps())
    }
}

impl fmt::Debug for Container {
    fn fmt(&self, f: &mut fmt::Formatter) -> fmt::Result {
        write!(f, "Container({self})")
    }
}
