//! Panels inside a screen: a container of panels and of the steps that can be undone.

use crate::Refusal;

/// The most panels, recorded steps, and operations of a step.
pub const MAX_PANELS: usize = 8;
pub const MAX_STEPS: usize = 8;
pub const MAX_OPERATIONS: usize = 4;

/// An operation on panels.
#[derive(Clone, Copy, Debug, PartialEq, Eq)]
pub enum Operation {
    /// Adds a panel on top.
    Add(u8),
    /// Removes the topmost of this number, if there is one.
    Remove(u8),
    /// Removes all and adds a panel.
    Replace(u8),
}

impl Operation {
    /// The operations that bytes give, kind and panel in turn.
    pub fn list(bytes: &[u8]) -> Result<Vec<Operation>, Refusal> {
        let (pairs, rest) = bytes.as_chunks();
        if !(1..=MAX_OPERATIONS).contains(&pairs.len()) || !rest.is_empty() {
            return Err(Refusal::NotPanels);
        }
        pairs
            .iter()
            .map(|&[kind, panel]| match kind {
                1 => Ok(Operation::Add(panel)),
                2 => Ok(Operation::Remove(panel)),
                3 => Ok(Operation::Replace(panel)),
                _ => Err(Refusal::NotPanels),
            })
            .collect()
    }

    /// Carries the operation out on panels, the last one on top.
    pub fn carry_out(self, panels: &mut Vec<u8>) -> Result<(), Refusal> {
        match self {
            Operation::Add(_) if panels.len() >= MAX_PANELS => return Err(Refusal::PanelsFull),
            Operation::Add(panel) => panels.push(panel),
            Operation::Remove(panel) => {
                if let Some(at) = panels.iter().rposition(|&other| other == panel) {
                    panels.remove(at);
                }
            }
            Operation::Replace(panel) => *panels = vec![panel],
        }
        Ok(())
    }
}

/// A container: the panels, the last one on top, and of each recorded step the panels
/// that it found, the oldest first. One that is held may have too many of them.
#[derive(Clone, Debug, Default, PartialEq, Eq, Hash)]
pub struct Container {
    pub now: Vec<u8>,
    pub kept: Vec<Vec<u8>>,
}

impl Container {
    /// Makes a step of the operations that bytes give. Refused, it leaves the container
    /// as it was.
    pub fn step(&mut self, recorded: bool, operations: &[u8]) -> Result<(), Refusal> {
        let operations = Operation::list(operations)?;
        self.check()?;
        let mut panels = self.now.clone();
        for operation in operations {
            operation.carry_out(&mut panels)?;
        }
        match recorded {
            true if self.kept.len() >= MAX_STEPS => return Err(Refusal::NoStep),
            false if !self.kept.is_empty() => return Err(Refusal::NoStep),
            true => self.kept.push(self.now.clone()),
            false => {}
        }
        self.now = panels;
        Ok(())
    }

    /// Undoes the last recorded step.
    pub fn back(&mut self) -> Result<(), Refusal> {
        self.check()?;
        self.now = self.kept.pop().ok_or(Refusal::NoStep)?;
        Ok(())
    }

    /// Whether there are not too many steps, nor panels, now or kept.
    fn check(&self) -> Result<(), Refusal> {
        let fit = |panels: &Vec<u8>| panels.len() <= MAX_PANELS;
        let well = self.kept.len() <= MAX_STEPS && fit(&self.now) && self.kept.iter().all(fit);
        well.then_some(()).ok_or(Refusal::NotPanels)
    }

    /// The container after a list of calls, from an empty one.
    pub fn play(list: &[u8]) -> Container {
        let mut container = Container::default();
        for call in calls(list) {
            // What is refused changes nothing.
            let _ = container.make(call);
        }
        container
    }

    /// Makes a call.
    pub fn make(&mut self, call: Call) -> Result<(), Refusal> {
        match call.kind {
            Call::STEP => self.step(false, call.operations),
            Call::RECORDED_STEP => self.step(true, call.operations),
            Call::BACK => self.back(),
            _ => Ok(()),
        }
    }
}

/// A call of a list: its kind, and the bytes behind the count, of which there are twice
/// as many as that says. Back passes over them, and another kind is no call.
#[derive(Clone, Copy, Debug, PartialEq, Eq)]
pub struct Call<'a> {
    pub kind: u8,
    pub operations: &'a [u8],
}

impl Call<'_> {
    pub const STEP: u8 = 1;
    pub const RECORDED_STEP: u8 = 2;
    pub const BACK: u8 = 3;
}

/// The calls of a list. A cut one ends it.
pub fn calls(list: &[u8]) -> impl Iterator<Item = Call<'_>> {
    let mut left = list;
    std::iter::from_fn(move || {
        let &[kind, count, ref behind @ ..] = left else {
            return None;
        };
        let (operations, rest) = behind.split_at_checked(2 * usize::from(count))?;
        left = rest;
        Some(Call { kind, operations })
    })
}
