//! Bytes that are lent to a call, each region at an edge of memory.

use std::hint::black_box;

use second::random::Random;

use crate::pages::{Edge, Pages};

/// Room for so many regions.
pub struct Memory<const N: usize> {
    regions: [Pages; N],
    edges: Random,
}

/// What a call gives, and what it leaves of the bytes that it was lent.
#[derive(Clone, Debug, PartialEq)]
pub struct Left<T, const N: usize> {
    pub given: T,
    pub bytes: [Vec<u8>; N],
    /// Whether bytes beside a region were written.
    pub outside: bool,
}

impl<const N: usize> Memory<N> {
    /// Regions of up to these many bytes.
    pub fn new(room: [usize; N]) -> Memory<N> {
        Memory {
            regions: room.map(Pages::new),
            edges: Random::new(0),
        }
    }

    /// Lends these bytes to a call, each region ending at a page that may not be
    /// touched, or beginning right behind one.
    pub fn lend<T>(
        &mut self,
        bytes: [&[u8]; N],
        call: impl FnOnce([&mut [u8]; N]) -> T,
    ) -> Left<T, N> {
        let edges = bytes.map(|bytes| (bytes, Edge::random(&mut self.edges)));
        let mut placed = edges.iter();
        let mut next = || *placed.next().expect("an edge for each region");
        let lent = self.regions.each_mut().map(|pages| {
            let (bytes, edge) = next();
            pages.place(bytes, edge)
        });
        let given = call(lent);
        // What the call may only read is looked at anew.
        let regions = black_box(&mut self.regions);
        let mut outside = false;
        let mut placed = edges.iter();
        let bytes = regions.each_mut().map(|pages| {
            let (bytes, edge) = placed.next().expect("an edge for each region");
            outside |= pages.touched(bytes.len(), *edge);
            pages.region(bytes.len(), *edge).to_vec()
        });
        Left {
            given,
            bytes,
            outside,
        }
    }
}
