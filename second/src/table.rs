//! The screen table, the four launch modes and the flag word.

use crate::Refusal;

/// NTK, new task.
pub const NEW_TASK: u32 = 0x1000_0000;
/// STP, single top.
pub const SINGLE_TOP: u32 = 0x2000_0000;
/// MTK, multiple task.
pub const MULTIPLE_TASK: u32 = 0x0800_0000;
/// CTP, clear top.
pub const CLEAR_TOP: u32 = 0x0400_0000;
/// RTF, reorder to front.
pub const REORDER_TO_FRONT: u32 = 0x0002_0000;
/// CTK, clear task.
pub const CLEAR_TASK: u32 = 0x0000_8000;
/// The started screen must not be returned to.
pub const NO_HISTORY: u32 = 0x4000_0000;

/// The seven flags, one by one; No-History, which chooses no rule, is the last.
pub const FLAGS: [u32; 7] = [
    NEW_TASK,
    SINGLE_TOP,
    MULTIPLE_TASK,
    CLEAR_TOP,
    REORDER_TO_FRONT,
    CLEAR_TASK,
    NO_HISTORY,
];

/// All seven flags.
pub const ALL_FLAGS: u32 =
    NEW_TASK | SINGLE_TOP | MULTIPLE_TASK | CLEAR_TOP | REORDER_TO_FRONT | CLEAR_TASK | NO_HISTORY;

/// How many sets of the seven flags there are.
pub const FLAG_WORDS: u32 = 1 << FLAGS.len();

/// The set of flags whose number, below 128, has these bits; below 64 it is without
/// No-History.
pub fn flag_word(number: u32) -> u32 {
    (0..FLAGS.len())
        .filter(|bit| number >> bit & 1 == 1)
        .map(|bit| FLAGS[bit])
        .sum()
}

/// The affinity of a screen that belongs with no task.
pub const NO_AFFINITY: u8 = 0;

/// The largest number of screens a table lists.
pub const MAX_SCREENS: u8 = 64;

/// A screen's launch mode.
#[derive(Clone, Copy, Debug, PartialEq, Eq, Hash)]
pub enum Mode {
    Standard,
    SingleTop,
    SingleTask,
    SingleInstance,
}

impl Mode {
    fn from_byte(byte: u8) -> Option<Mode> {
        match byte {
            0 => Some(Mode::Standard),
            1 => Some(Mode::SingleTop),
            2 => Some(Mode::SingleTask),
            3 => Some(Mode::SingleInstance),
            _ => None,
        }
    }
}

/// A good table: between 1 and 64 screens, one of them the main screen.
#[derive(Clone, Debug, PartialEq, Eq)]
pub struct Table {
    main: u8,
    screens: Vec<(Mode, u8)>,
}

impl Table {
    /// The length in bytes of a table of `n` screens, if `n` is 1 to 64.
    pub fn length(n: u8) -> Option<usize> {
        (1..=MAX_SCREENS)
            .contains(&n)
            .then(|| 2 + 2 * usize::from(n))
    }

    /// Reads a table from exactly these bytes.
    // Inline, so that a call that checks its table does not move it about.
    #[inline]
    pub fn parse(bytes: &[u8]) -> Result<Table, Refusal> {
        let n = *bytes.first().ok_or(Refusal::TableLength)?;
        if Table::length(n) != Some(bytes.len()) {
            return Err(Refusal::TableLength);
        }
        let main = bytes[1];
        if main >= n {
            return Err(Refusal::TableContent);
        }
        let screens = bytes[2..]
            .chunks_exact(2)
            .map(|pair| Some((Mode::from_byte(pair[0])?, pair[1])))
            .collect::<Option<Vec<_>>>()
            .ok_or(Refusal::TableContent)?;
        Ok(Table { main, screens })
    }

    /// The main screen's number.
    pub fn main(&self) -> u8 {
        self.main
    }

    /// Whether the table lists this screen.
    pub fn has(&self, screen: u8) -> bool {
        usize::from(screen) < self.screens.len()
    }

    /// The launch mode of a screen that the table lists.
    pub fn mode(&self, screen: u8) -> Mode {
        self.screens[usize::from(screen)].0
    }

    /// The affinity of a screen that the table lists.
    pub fn affinity(&self, screen: u8) -> u8 {
        self.screens[usize::from(screen)].1
    }

    /// Whether a screen that the table lists is single-instance.
    pub fn is_single_instance(&self, screen: u8) -> bool {
        self.mode(screen) == Mode::SingleInstance
    }
}
