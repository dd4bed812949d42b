//! Sets of flags, in the place of the crate of this name.

use core::ops::{BitAnd, BitOr, BitXor, Not};

/// A named flag of a set.
#[derive(Debug)]
pub struct Flag<B: 'static> {
    /// Its name.
    pub name: &'static str,
    /// The set of this flag alone.
    pub value: B,
}

/// A word of bits.
pub trait Bits:
    Copy
    + PartialEq
    + Default
    + BitAnd<Output = Self>
    + BitOr<Output = Self>
    + BitXor<Output = Self>
    + Not<Output = Self>
{
}

impl Bits for u8 {}
impl Bits for u16 {}
impl Bits for u32 {}
impl Bits for u64 {}

/// A set of flags, by its bits.
pub trait Flags: Sized + Copy + 'static {
    /// The word of the bits.
    type Bits: Bits;

    /// The named flags.
    fn flags<'a>() -> &'a [Flag<Self>];

    /// The bits of the set.
    fn bits(&self) -> Self::Bits;

    /// The set of these bits, unknown ones among them.
    fn from_bits_retain(bits: Self::Bits) -> Self;

    /// No flags.
    #[inline]
    fn empty() -> Self {
        Self::from_bits_retain(Self::Bits::default())
    }

    /// All named flags.
    fn all() -> Self {
        Self::flags()
            .iter()
            .fold(Self::empty(), |all, flag| all.union(flag.value))
    }

    /// The set of these bits, where all of them are known.
    fn from_bits(bits: Self::Bits) -> Option<Self> {
        let known = Self::from_bits_truncate(bits);
        (known.bits() == bits).then_some(known)
    }

    /// The set of the known ones of these bits.
    fn from_bits_truncate(bits: Self::Bits) -> Self {
        Self::from_bits_retain(bits & Self::all().bits())
    }

    /// Whether no bit is set.
    #[inline]
    fn is_empty(&self) -> bool {
        self.bits() == Self::Bits::default()
    }

    /// Whether all bits of the other set are set.
    #[inline]
    fn contains(&self, other: Self) -> bool {
        self.bits() & other.bits() == other.bits()
    }

    /// Whether a bit is set in both.
    #[inline]
    fn intersects(&self, other: Self) -> bool {
        self.bits() & other.bits() != Self::Bits::default()
    }

    /// The bits of either set.
    #[inline]
    #[must_use]
    fn union(self, other: Self) -> Self {
        Self::from_bits_retain(self.bits() | other.bits())
    }

    /// The bits of both sets.
    #[inline]
    #[must_use]
    fn intersection(self, other: Self) -> Self {
        Self::from_bits_retain(self.bits() & other.bits())
    }

    /// The bits of this set that are not in the other.
    #[inline]
    #[must_use]
    fn difference(self, other: Self) -> Self {
        Self::from_bits_retain(self.bits() & !other.bits())
    }

    /// The bits that are in one of the sets alone.
    #[inline]
    #[must_use]
    fn symmetric_difference(self, other: Self) -> Self {
        Self::from_bits_retain(self.bits() ^ other.bits())
    }

    /// The known bits that are not set.
    #[must_use]
    fn complement(self) -> Self {
        Self::from_bits_truncate(!self.bits())
    }

    /// Whether all named flags are set.
    fn is_all(&self) -> bool {
        self.contains(Self::all())
    }

    /// Sets the bits of the other set.
    #[inline]
    fn insert(&mut self, other: Self) {
        *self = self.union(other);
    }

    /// Clears the bits of the other set.
    #[inline]
    fn remove(&mut self, other: Self) {
        *self = self.difference(other);
    }

    /// Sets the bits of the other set that are not set, and clears the others.
    #[inline]
    fn toggle(&mut self, other: Self) {
        *self = self.symmetric_difference(other);
    }

    /// Sets or clears the bits of the other set.
    #[inline]
    fn set(&mut self, other: Self, value: bool) {
        if value {
            self.insert(other);
        } else {
            self.remove(other);
        }
    }
}
