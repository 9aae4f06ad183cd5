//! The flag word of a start.

use std::fmt;
use std::ops::{BitAnd, BitAndAssign, BitOr, BitOrAssign, Not, Sub, SubAssign};
use std::str::FromStr;

use crate::UnknownName;

/// The flags of a start, as Android publishes them, by the conventions of the
/// crate `bitflags`. Any of the seven may be set together.
#[derive(Clone, Copy, Default, PartialEq, Eq, Hash)]
pub struct Flags(u32);

impl Flags {
    /// No flag.
    pub const NONE: Flags = Flags(0);
    /// Android's `FLAG_ACTIVITY_NEW_TASK`.
    pub const NEW_TASK: Flags = Flags(0x1000_0000);
    /// Android's `FLAG_ACTIVITY_SINGLE_TOP`.
    pub const SINGLE_TOP: Flags = Flags(0x2000_0000);
    /// Android's `FLAG_ACTIVITY_MULTIPLE_TASK`.
    pub const MULTIPLE_TASK: Flags = Flags(0x0800_0000);
    /// Android's `FLAG_ACTIVITY_CLEAR_TOP`.
    pub const CLEAR_TOP: Flags = Flags(0x0400_0000);
    /// Android's `FLAG_ACTIVITY_REORDER_TO_FRONT`.
    pub const REORDER_TO_FRONT: Flags = Flags(0x0002_0000);
    /// Android's `FLAG_ACTIVITY_CLEAR_TASK`.
    pub const CLEAR_TASK: Flags = Flags(0x0000_8000);
    /// Android's `FLAG_ACTIVITY_NO_HISTORY`.
    pub const NO_HISTORY: Flags = Flags(0x4000_0000);

    const NAMED: [(&'static str, Flags); 7] = [
        ("NEW_TASK", Flags::NEW_TASK),
        ("SINGLE_TOP", Flags::SINGLE_TOP),
        ("MULTIPLE_TASK", Flags::MULTIPLE_TASK),
        ("CLEAR_TOP", Flags::CLEAR_TOP),
        ("REORDER_TO_FRONT", Flags::REORDER_TO_FRONT),
        ("CLEAR_TASK", Flags::CLEAR_TASK),
        ("NO_HISTORY", Flags::NO_HISTORY),
    ];

    /// No flag.
    #[must_use]
    pub const fn empty() -> Flags {
        Flags::NONE
    }

    /// All seven flags.
    #[must_use]
    pub const fn all() -> Flags {
        let mut word = 0;
        let mut i = 0;
        while i < Flags::NAMED.len() {
            word |= Flags::NAMED[i].1 .0;
            i += 1;
        }
        Flags(word)
    }

    /// The flags of a whole word, or none where it has a bit outside the seven.
    #[must_use]
    pub const fn from_bits(word: u32) -> Option<Flags> {
        if word & !Flags::all().0 == 0 {
            Some(Flags(word))
        } else {
            None
        }
    }

    /// The flags of a whole word, as an intent or a recording holds it. With a
    /// bit outside the seven, a start is refused.
    #[must_use]
    pub const fn from_bits_retain(word: u32) -> Flags {
        Flags(word)
    }

    /// The flag of this name, such as `NEW_TASK`.
    #[must_use]
    pub fn from_name(name: &str) -> Option<Flags> {
        let named = Flags::NAMED.iter().find(|(known, _)| *known == name);
        named.map(|(_, flag)| *flag)
    }

    /// The flags that are set, by name. Bits outside the seven have none.
    ///
    /// ```
    /// use milchkompass::Flags;
    ///
    /// let flags = Flags::CLEAR_TASK | Flags::NEW_TASK;
    /// let names: Vec<&str> = flags.iter_names().map(|(name, _)| name).collect();
    /// assert_eq!(names, ["NEW_TASK", "CLEAR_TASK"]);
    /// assert_eq!(Flags::from_name("CLEAR_TASK"), Some(Flags::CLEAR_TASK));
    /// assert_eq!(Flags::from_name("CLEAR"), None);
    /// ```
    pub fn iter_names(self) -> impl Iterator<Item = (&'static str, Flags)> {
        let named = Flags::NAMED.into_iter();
        named.filter(move |(_, flag)| self.contains(*flag))
    }

    /// The whole word.
    #[must_use]
    pub const fn bits(self) -> u32 {
        self.0
    }

    /// No bit is set.
    #[must_use]
    pub const fn is_empty(self) -> bool {
        self.0 == 0
    }

    /// All of the other's bits are set.
    #[must_use]
    pub const fn contains(self, other: Flags) -> bool {
        self.0 & other.0 == other.0
    }

    /// One of the other's bits is set.
    #[must_use]
    pub const fn intersects(self, other: Flags) -> bool {
        self.0 & other.0 != 0
    }

    /// Sets the other's bits.
    pub fn insert(&mut self, other: Flags) {
        self.0 |= other.0;
    }

    /// Clears the other's bits.
    pub fn remove(&mut self, other: Flags) {
        self.0 &= !other.0;
    }

    /// The names of the flags that are set, and the other bits as a number.
    fn parts(self) -> Vec<String> {
        let names = self.iter_names();
        let mut parts: Vec<String> = names.map(|(name, _)| name.to_string()).collect();
        let other = self - Flags::all();
        if !other.is_empty() {
            parts.push(format!("{:#x}", other.0));
        }
        parts
    }

    /// What is one part of a text of flags.
    fn from_part(part: &str) -> Option<Flags> {
        let Some(digits) = part.strip_prefix("0x") else {
            return Flags::from_name(part);
        };
        let hex = digits.bytes().all(|digit| digit.is_ascii_hexdigit());
        let word = u32::from_str_radix(digits, 16).ok();
        word.filter(|_| hex).map(Flags)
    }
}

impl BitOr for Flags {
    type Output = Flags;

    fn bitor(self, other: Flags) -> Flags {
        Flags(self.0 | other.0)
    }
}

impl BitOrAssign for Flags {
    fn bitor_assign(&mut self, other: Flags) {
        *self = *self | other;
    }
}

impl BitAnd for Flags {
    type Output = Flags;

    fn bitand(self, other: Flags) -> Flags {
        Flags(self.0 & other.0)
    }
}

impl BitAndAssign for Flags {
    fn bitand_assign(&mut self, other: Flags) {
        *self = *self & other;
    }
}

/// Those of the seven that are not set.
impl Not for Flags {
    type Output = Flags;

    fn not(self) -> Flags {
        Flags::all() - self
    }
}

/// Without the other's bits.
impl Sub for Flags {
    type Output = Flags;

    fn sub(self, other: Flags) -> Flags {
        Flags(self.0 & !other.0)
    }
}

impl SubAssign for Flags {
    fn sub_assign(&mut self, other: Flags) {
        *self = *self - other;
    }
}

/// `Flags(NEW_TASK | SINGLE_TOP | 0x1)`
impl fmt::Debug for Flags {
    fn fmt(&self, f: &mut fmt::Formatter) -> fmt::Result {
        match self.is_empty() {
            true => f.write_str("Flags(0x0)"),
            false => write!(f, "Flags({})", self.parts().join(" | ")),
        }
    }
}

/// `NEW_TASK|SINGLE_TOP|0x1`, as `show` writes it; no flag is no text.
impl fmt::Display for Flags {
    fn fmt(&self, f: &mut fmt::Formatter) -> fmt::Result {
        f.pad(&self.parts().join("|"))
    }
}

/// The flags that display so. Spaces around each part are passed over.
///
/// ```
/// use milchkompass::Flags;
///
/// assert_eq!("NEW_TASK | CLEAR_TOP".parse(), Ok(Flags::NEW_TASK | Flags::CLEAR_TOP));
/// assert_eq!("".parse(), Ok(Flags::NONE));
/// ```
impl FromStr for Flags {
    type Err = UnknownName;

    fn from_str(text: &str) -> Result<Flags, UnknownName> {
        let mut flags = Flags::NONE;
        if text.trim().is_empty() {
            return Ok(flags);
        }
        for part in text.split('|').map(str::trim) {
            let unknown = || UnknownName {
                name: part.to_string(),
                of: "flag",
            };
            flags |= Flags::from_part(part).ok_or_else(unknown)?;
        }
        Ok(flags)
    }
}
