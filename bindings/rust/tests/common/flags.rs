//! The flags by document 01's names for them; a test uses some.
#![allow(dead_code)]

use milchkompass::Flags;

pub const NONE: Flags = Flags::NONE;
pub const NTK: Flags = Flags::NEW_TASK;
pub const STP: Flags = Flags::SINGLE_TOP;
pub const MTK: Flags = Flags::MULTIPLE_TASK;
pub const CTP: Flags = Flags::CLEAR_TOP;
pub const RTF: Flags = Flags::REORDER_TO_FRONT;
pub const CTK: Flags = Flags::CLEAR_TASK;
pub const NOH: Flags = Flags::NO_HISTORY;
