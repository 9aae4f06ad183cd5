//! The flag chart: a byte for each launch mode of B, caller and set of the six flags
//! that choose rules, which tells the rules that are asked and what they look at.

use crate::table::{CLEAR_TASK, CLEAR_TOP, MULTIPLE_TASK, NEW_TASK, REORDER_TO_FRONT, SINGLE_TOP};
use crate::Mode;

/// How many entries there are.
pub const ENTRIES: usize = 512;

/// The six flags with what they are worth in an index.
const WORTH: [(u32, u16); 6] = [
    (NEW_TASK, 32),
    (SINGLE_TOP, 16),
    (MULTIPLE_TASK, 8),
    (CLEAR_TOP, 4),
    (REORDER_TO_FRONT, 2),
    (CLEAR_TASK, 1),
];

/// What an entry is of: the mode of B, whether A is single-instance, and the flags.
#[derive(Clone, Copy, Debug, PartialEq, Eq)]
pub struct Asked {
    pub mode: Mode,
    pub apart_caller: bool,
    pub flags: u32,
}

impl Asked {
    /// What the entry at an index is of.
    pub fn at(index: u16) -> Option<Asked> {
        let mode = match index / 128 {
            0 => Mode::Standard,
            1 => Mode::SingleTop,
            2 => Mode::SingleTask,
            3 => Mode::SingleInstance,
            _ => return None,
        };
        let set = WORTH.iter().filter(|&&(_, worth)| index & worth != 0);
        Some(Asked {
            mode,
            apart_caller: index & 64 != 0,
            flags: set.map(|&(flag, _)| flag).sum(),
        })
    }

    /// The index of its entry; flags beside the six are not in it.
    pub fn index(&self) -> u16 {
        let set = WORTH.iter().filter(|&&(flag, _)| self.has(flag));
        let flags: u16 = set.map(|&(_, worth)| worth).sum();
        self.mode as u16 * 128 + u16::from(self.apart_caller) * 64 + flags
    }

    fn has(&self, flag: u32) -> bool {
        self.flags & flag != 0
    }

    /// 1 for R1 and R2, 2 for R3 to R6, 3 for R7 to R10, 4 for R11, 5 for R12 to R18.
    pub fn class(&self) -> u8 {
        let apart = self.has(NEW_TASK) || self.apart_caller;
        match self.mode {
            Mode::SingleInstance => 1,
            Mode::SingleTask => 2,
            _ if !apart => 3,
            _ if self.has(MULTIPLE_TASK) => 4,
            _ => 5,
        }
    }

    /// The entry: its class with the values that are added.
    pub fn entry(&self) -> u8 {
        let class = self.class();
        let single = self.mode == Mode::SingleTop || self.has(SINGLE_TOP);
        let (clear_top, clear_task) = (self.has(CLEAR_TOP), self.has(CLEAR_TASK));
        let values = [
            (
                8,
                single && (class == 3 || class == 5 && !clear_top && !clear_task),
            ),
            (16, clear_top && (class == 3 || class == 5 && !clear_task)),
            (32, clear_task && (class == 2 || class == 5)),
            (64, self.has(REORDER_TO_FRONT) && !clear_top && class == 3),
        ];
        let added = values.iter().filter(|(_, is_added)| *is_added);
        class + added.map(|(value, _)| value).sum::<u8>()
    }
}

/// The entry at an index, if there is one.
pub fn entry(index: u16) -> Option<u8> {
    Asked::at(index).map(|asked| asked.entry())
}

/// All entries in the order of their indices.
pub fn entries() -> Vec<u8> {
    (0..).map_while(entry).collect()
}
