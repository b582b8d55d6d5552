//! Stand-in for the `enumset` crate: a set of the variants of a small enum,
//! with only the operations that the parser uses.
//!
//! As in the real crate, a set over an enum of at most 8 variants is one byte,
//! so that a `ParseNode` that holds one keeps its size.

use std::marker::PhantomData;

/// An enum of at most 8 variants. The real crate derives this; here it is
/// written out for the one enum that needs it.
pub trait EnumSetType: Copy {
    /// The place of the variant in the enum, 0 to 7.
    fn place(self) -> u8;
}

pub struct EnumSet<T: EnumSetType> {
    bits: u8,
    of: PhantomData<T>,
}

impl<T: EnumSetType> EnumSet<T> {
    #[inline]
    pub const fn new() -> Self {
        EnumSet {
            bits: 0,
            of: PhantomData,
        }
    }

    /// Adds the variant; says whether it was absent.
    #[inline]
    pub fn insert(&mut self, value: T) -> bool {
        let absent = !self.contains(value);
        self.bits |= 1 << value.place();
        absent
    }

    #[inline]
    pub fn contains(&self, value: T) -> bool {
        self.bits & (1 << value.place()) != 0
    }

    #[inline]
    pub fn difference(&self, other: Self) -> Self {
        EnumSet {
            bits: self.bits & !other.bits,
            of: PhantomData,
        }
    }
}

impl<T: EnumSetType> From<T> for EnumSet<T> {
    #[inline]
    fn from(value: T) -> Self {
        EnumSet {
            bits: 1 << value.place(),
            of: PhantomData,
        }
    }
}

impl<T: EnumSetType> Clone for EnumSet<T> {
    #[inline]
    fn clone(&self) -> Self {
        *self
    }
}

impl<T: EnumSetType> Copy for EnumSet<T> {}

impl<T: EnumSetType> std::fmt::Debug for EnumSet<T> {
    fn fmt(&self, f: &mut std::fmt::Formatter<'_>) -> std::fmt::Result {
        write!(f, "EnumSet({:#b})", self.bits)
    }
}
