//! A set of declaration flags.

use core::fmt;
use core::ops::BitOr;

use crate::DeclarationFlag;

/// The flags of a declaration.
///
/// ```
/// use penne_parser::{DeclarationFlag, DeclarationFlags};
///
/// let flags = DeclarationFlag::Public | DeclarationFlag::External;
/// assert!(flags.contains(DeclarationFlag::Public));
/// assert_eq!(flags.bits(), 3);
/// assert_eq!(DeclarationFlags::from_bits(3), Some(flags));
/// ```
#[derive(Clone, Copy, Default, PartialEq, Eq, Hash)]
pub struct DeclarationFlags(u32);

impl DeclarationFlags {
    /// No flag.
    pub const EMPTY: DeclarationFlags = DeclarationFlags(0);

    /// All five flags.
    pub const ALL: DeclarationFlags = DeclarationFlags(31);

    /// The sum of the flags: Public 1, External 2, Main 4, Forward 8, OpaqueStruct 16.
    pub fn bits(self) -> u32 {
        self.0
    }

    /// The flags with this sum, if there are such.
    pub fn from_bits(bits: u32) -> Option<DeclarationFlags> {
        (bits <= DeclarationFlags::ALL.0).then_some(DeclarationFlags(bits))
    }

    /// Whether this flag is among them.
    pub fn contains(self, flag: DeclarationFlag) -> bool {
        self.0 & DeclarationFlags::from(flag).0 != 0
    }

    /// The flags, in the order of their codes.
    pub fn iter(self) -> impl Iterator<Item = DeclarationFlag> {
        let all = DeclarationFlag::ALL.iter().copied();
        all.filter(move |&flag| self.contains(flag))
    }
}

impl From<DeclarationFlag> for DeclarationFlags {
    fn from(flag: DeclarationFlag) -> DeclarationFlags {
        DeclarationFlags(1 << flag as u32)
    }
}

impl<T: Into<DeclarationFlags>> BitOr<T> for DeclarationFlags {
    type Output = DeclarationFlags;

    fn bitor(self, more: T) -> DeclarationFlags {
        DeclarationFlags(self.0 | more.into().0)
    }
}

impl<T: Into<DeclarationFlags>> BitOr<T> for DeclarationFlag {
    type Output = DeclarationFlags;

    fn bitor(self, more: T) -> DeclarationFlags {
        DeclarationFlags::from(self) | more
    }
}

impl FromIterator<DeclarationFlag> for DeclarationFlags {
    fn from_iter<T: IntoIterator<Item = DeclarationFlag>>(flags: T) -> DeclarationFlags {
        let flags = flags.into_iter();
        flags.fold(DeclarationFlags::EMPTY, |set, flag| set | flag)
    }
}

impl fmt::Debug for DeclarationFlags {
    fn fmt(&self, f: &mut fmt::Formatter<'_>) -> fmt::Result {
        f.debug_set().entries(self.iter()).finish()
    }
}

/// The names of the flags with spaces between them, or `no flag`.
impl fmt::Display for DeclarationFlags {
    fn fmt(&self, f: &mut fmt::Formatter<'_>) -> fmt::Result {
        if *self == DeclarationFlags::EMPTY {
            return f.write_str("no flag");
        }
        for (place, flag) in self.iter().enumerate() {
            let space = if place == 0 { "" } else { " " };
            write!(f, "{space}{flag}")?;
        }
        Ok(())
    }
}
