//! A small generator of random numbers (splitmix64), so that a seed always
//! gives the same inputs, and random tables made with it.

pub struct Random(u64);

impl Random {
    pub fn new(seed: u64) -> Random {
        Random(seed)
    }

    pub fn next(&mut self) -> u64 {
        self.0 = self.0.wrapping_add(0x9e37_79b9_7f4a_7c15);
        let mut z = self.0;
        z = (z ^ (z >> 30)).wrapping_mul(0xbf58_476d_1ce4_e5b9);
        z = (z ^ (z >> 27)).wrapping_mul(0x94d0_49bb_1331_11eb);
        z ^ (z >> 31)
    }

    /// A number below `n`, which is at least 1.
    pub fn below(&mut self, n: u64) -> u64 {
        self.next() % n
    }

    /// A byte below `n`, which is 1 to 256.
    pub fn byte(&mut self, n: u16) -> u8 {
        self.below(u64::from(n)) as u8
    }

    /// A number from `low` to `high`, both included.
    pub fn between(&mut self, low: u64, high: u64) -> u64 {
        low + self.below(high - low + 1)
    }

    /// True so many times in a hundred.
    pub fn percent(&mut self, part: u64) -> bool {
        self.below(100) < part
    }

    /// One of the items.
    pub fn one_of<T: Copy>(&mut self, items: &[T]) -> T {
        items[self.below(items.len() as u64) as usize]
    }

    /// An index, by weights that are not all zero.
    pub fn weighted(&mut self, weights: &[u64]) -> usize {
        let mut left = self.below(weights.iter().sum());
        for (index, &weight) in weights.iter().enumerate() {
            if left < weight {
                return index;
            }
            left -= weight;
        }
        unreachable!("the weights add up")
    }

    /// An edition byte of a launch: mostly one that is accepted.
    pub fn edition_byte(&mut self) -> u8 {
        match self.below(20) {
            0 => self.byte(256),
            1 => self.one_of(&[1, 5, 9, 255]),
            _ => self.one_of(&[0, 6, 7, 8]),
        }
    }

    /// The bytes of a good table of these many screens. A third of the affinities
    /// are 0, the others from 1 to the number given; launch modes go by weights.
    pub fn table(&mut self, screens: u8, affinities: u8, modes: &[u64; 4]) -> Vec<u8> {
        let mut table = vec![screens, self.byte(u16::from(screens))];
        for _ in 0..screens {
            let mode = self.weighted(modes) as u8;
            let affinity = match self.below(3) {
                0 => 0,
                _ => 1 + self.byte(u16::from(affinities)),
            };
            table.extend([mode, affinity]);
        }
        table
    }
}
