//! Containers as the static library stores them, and as the second navigator does: both
//! ways.

use std::mem;

use second::panels::{Container, MAX_PANELS, MAX_STEPS};

/// How many bytes a stored container is.
pub const CONTAINER: usize = (1 + MAX_PANELS) * (1 + MAX_STEPS) + 1;

/// So many panels, the last one on top.
#[repr(C)]
#[derive(Clone, Copy, Debug, PartialEq)]
pub struct StoredPanels {
    pub count: u8,
    pub panels: [u8; MAX_PANELS],
}

/// The panels, how many steps are recorded, and the panels that each of them found.
#[repr(C)]
#[derive(Clone, Copy, Debug, PartialEq)]
pub struct Stored {
    pub now: StoredPanels,
    pub steps: u8,
    pub kept: [StoredPanels; MAX_STEPS],
}

const NONE: StoredPanels = StoredPanels {
    count: 0,
    panels: [0; MAX_PANELS],
};

impl StoredPanels {
    fn hold(list: &[u8]) -> StoredPanels {
        let mut stored = NONE;
        stored.count = list.len() as u8;
        stored.panels[..list.len()].copy_from_slice(list);
        stored
    }

    /// The panels; where there are too many, so many zeros.
    fn view(&self) -> Vec<u8> {
        let count = usize::from(self.count);
        match self.panels.get(..count) {
            Some(panels) => panels.to_vec(),
            None => vec![0; count],
        }
    }
}

impl Stored {
    pub const EMPTY: Stored = Stored {
        now: NONE,
        steps: 0,
        kept: [NONE; MAX_STEPS],
    };

    /// A container that has not too many, with zeros in what it does not use.
    pub fn hold(container: &Container) -> Stored {
        let mut stored = Stored::EMPTY;
        stored.now = StoredPanels::hold(&container.now);
        stored.steps = container.kept.len() as u8;
        for (place, kept) in stored.kept.iter_mut().zip(&container.kept) {
            *place = StoredPanels::hold(kept);
        }
        stored
    }

    /// The container that is stored. Where there are too many steps, those that no
    /// place is for have no panels.
    pub fn view(&self) -> Container {
        let steps = 0..usize::from(self.steps);
        let kept = steps.map(|step| self.kept.get(step).map_or(Vec::new(), StoredPanels::view));
        Container {
            now: self.now.view(),
            kept: kept.collect(),
        }
    }

    pub fn bytes(&self) -> [u8; CONTAINER] {
        // Both types are CONTAINER bytes with none between them.
        unsafe { mem::transmute(*self) }
    }

    pub fn from_bytes(bytes: [u8; CONTAINER]) -> Stored {
        // Any bytes are a stored container.
        unsafe { mem::transmute(bytes) }
    }

    /// These bytes as the container that they are.
    pub fn lent(bytes: &mut [u8]) -> &mut Stored {
        assert!(bytes.len() == CONTAINER, "a container's bytes");
        // As many bytes as a container is, and any are one; both want no alignment.
        unsafe { &mut *bytes.as_mut_ptr().cast() }
    }
}
