//! The names that a user of rustybuzz knows, at the root.

pub use crate::arrayvec::{ArrayVec, CapacityError};
pub use crate::bitflags::{Flag, Flags};
pub use crate::buffer::{
    BufferClusterLevel, GlyphBuffer, UnicodeBuffer, hb_buffer_cluster_level_t, hb_buffer_t,
    hb_glyph_info_t,
};
pub use crate::common::{Direction, GlyphId, Script, Tag, TagExt, script};
pub use crate::font::Font;
pub use crate::glyph::{
    BufferFlags, CharExt, CombiningClasses, Compositions, Decompositions, GlyphExtents, GlyphInfo,
    GlyphNames, GlyphPosition, GlyphPropsFlags, Mirrors, NoGlyphNames, SerializeFlags,
    UnicodeProps, glyph_flag, hb_buffer_scratch_flags_t, hb_unicode_general_category_t, space_t,
};
pub use crate::memory::AllocError;
pub use crate::ot_shape::{
    Face, FaceNames, FontFunctions, OwnFunctions, ShapeError, ShapePlan, Variation, VerifyError,
    shape, shape_with_functions, shape_with_plan,
};
pub use crate::runs::{Answer, Call, RenderFault, Stopped, render, render_at, replay};
pub use crate::text::{Feature, Language, LanguageError};
pub use crate::unicode_tables::UNICODE_VERSION;

use crate::ot_map::PlannedLookup;
use crate::ot_plan::text_plan;
use alloc::vec::Vec;
use core::ops::{
    BitAnd, BitAndAssign, BitOr, BitOrAssign, BitXor, BitXorAssign, Not, Sub, SubAssign,
};
use core::str::FromStr;

/// Why there is no face.
#[derive(Clone, Copy, Debug, PartialEq, Eq)]
#[non_exhaustive]
pub enum FaceError {
    /// The file has no font of this number.
    NoFont,
    /// There is no memory.
    Memory,
}

impl core::fmt::Display for FaceError {
    fn fmt(&self, f: &mut core::fmt::Formatter<'_>) -> core::fmt::Result {
        f.write_str(match self {
            FaceError::NoFont => "no font of this number",
            FaceError::Memory => "out of memory",
        })
    }
}

impl core::error::Error for FaceError {}

impl From<AllocError> for FaceError {
    fn from(_: AllocError) -> Self {
        FaceError::Memory
    }
}

impl<'a> Face<'a> {
    /// The font of this number in a file.
    ///
    /// # Errors
    ///
    /// [`FaceError::NoFont`] where the file has no such font, and [`FaceError::Memory`] where memory runs out. The count of those that
    /// share the face is kept by an `Arc` of std, which ends the program where there is no memory for it.
    pub fn parse(data: &'a [u8], index: u32) -> Result<Face<'a>, FaceError> {
        let mut face = Face::parse_if_there(data, index)?.ok_or(FaceError::NoFont)?;
        face.lookups.count();
        Ok(face)
    }

    /// The font of this number in a file, as rustybuzz finds it: `None` also where memory runs out, which
    /// [`Face::parse`] says.
    pub fn from_slice(data: &'a [u8], index: u32) -> Option<Face<'a>> {
        // by `parse` the face would be moved twice more
        let mut face = Face::parse_if_there(data, index).ok()??;
        face.lookups.count();
        Some(face)
    }
}

impl ShapePlan {
    /// The numbers of the lookups of `GSUB` by which texts are shaped, and those of `GPOS`, in the order in which they are applied.
    pub fn lookups(&self) -> (Vec<u16>, Vec<u16>) {
        let layout = &text_plan(self).shape.layout;
        let numbers =
            |lookups: &[PlannedLookup]| lookups.iter().map(|lookup| lookup.index).collect();
        (numbers(&layout.gsub_lookups), numbers(&layout.gpos_lookups))
    }
}

impl FromStr for Language {
    type Err = LanguageError;

    fn from_str(text: &str) -> Result<Self, LanguageError> {
        Language::from_str(text)
    }
}

impl Default for UnicodeBuffer {
    fn default() -> Self {
        UnicodeBuffer::new()
    }
}

impl Default for hb_buffer_t {
    fn default() -> Self {
        hb_buffer_t::new()
    }
}

impl Clone for Language {
    /// A copy. It panics where memory runs out, as a copy of a `String` of std does.
    fn clone(&self) -> Self {
        Language::from_str(self.as_str())
            .expect("a language is not empty, and there is memory for its copy")
    }
}

impl core::fmt::Debug for UnicodeBuffer {
    fn fmt(&self, f: &mut core::fmt::Formatter<'_>) -> core::fmt::Result {
        f.debug_struct("UnicodeBuffer")
            .field("len", &self.len())
            .field("direction", &self.direction())
            .field("language", &self.language())
            .field("script", &self.script())
            .field("cluster_level", &self.cluster_level())
            .finish()
    }
}

impl core::fmt::Debug for GlyphBuffer {
    fn fmt(&self, f: &mut core::fmt::Formatter<'_>) -> core::fmt::Result {
        f.debug_struct("GlyphBuffer")
            .field("glyph_infos", &self.glyph_infos())
            .field("ot_gpos", &self.glyph_positions())
            .finish()
    }
}

/// The methods and operators of sets of flags, as the crate `bitflags` gives them.
macro_rules! sets_of_flags {
    ($($set:ident: $bits:ty),*) => {
        $(
            impl $set {
                /// No flags.
                #[inline]
                pub const fn empty() -> Self {
                    $set(0)
                }

                /// All named flags.
                pub fn all() -> Self {
                    <Self as Flags>::all()
                }

                /// The bits of the set.
                #[inline]
                pub const fn bits(&self) -> $bits {
                    self.0
                }

                /// The set of these bits, where all of them are known.
                pub fn from_bits(bits: $bits) -> Option<Self> {
                    <Self as Flags>::from_bits(bits)
                }

                /// The set of the known ones of these bits.
                pub fn from_bits_truncate(bits: $bits) -> Self {
                    <Self as Flags>::from_bits_truncate(bits)
                }

                /// The set of these bits, unknown ones among them.
                #[inline]
                pub const fn from_bits_retain(bits: $bits) -> Self {
                    $set(bits)
                }

                /// Whether no bit is set.
                #[inline]
                pub const fn is_empty(&self) -> bool {
                    self.0 == 0
                }

                /// Whether all named flags are set.
                pub fn is_all(&self) -> bool {
                    self.contains(Self::all())
                }

                /// Whether all bits of the other set are set.
                #[inline]
                pub const fn contains(&self, other: Self) -> bool {
                    self.0 & other.0 == other.0
                }

                /// Whether a bit is set in both.
                #[inline]
                pub const fn intersects(&self, other: Self) -> bool {
                    self.0 & other.0 != 0
                }

                /// The bits of either set.
                #[inline]
                #[must_use]
                pub const fn union(self, other: Self) -> Self {
                    $set(self.0 | other.0)
                }

                /// The bits of both sets.
                #[inline]
                #[must_use]
                pub const fn intersection(self, other: Self) -> Self {
                    $set(self.0 & other.0)
                }

                /// The bits of this set that are not in the other.
                #[inline]
                #[must_use]
                pub const fn difference(self, other: Self) -> Self {
                    $set(self.0 & !other.0)
                }

                /// The bits that are in one of the sets alone.
                #[inline]
                #[must_use]
                pub const fn symmetric_difference(self, other: Self) -> Self {
                    $set(self.0 ^ other.0)
                }

                /// The known bits that are not set.
                #[must_use]
                pub fn complement(self) -> Self {
                    Self::from_bits_truncate(!self.0)
                }

                /// Sets the bits of the other set.
                #[inline]
                pub fn insert(&mut self, other: Self) {
                    self.0 |= other.0;
                }

                /// Clears the bits of the other set.
                #[inline]
                pub fn remove(&mut self, other: Self) {
                    self.0 &= !other.0;
                }

                /// Sets the bits of the other set that are not set, and clears the others.
                #[inline]
                pub fn toggle(&mut self, other: Self) {
                    self.0 ^= other.0;
                }

                /// Sets or clears the bits of the other set.
                #[inline]
                pub fn set(&mut self, other: Self, value: bool) {
                    if value {
                        self.insert(other);
                    } else {
                        self.remove(other);
                    }
                }
            }

            impl BitOr for $set {
                type Output = Self;

                fn bitor(self, other: Self) -> Self {
                    self.union(other)
                }
            }

            impl BitOrAssign for $set {
                fn bitor_assign(&mut self, other: Self) {
                    self.insert(other);
                }
            }

            impl BitAnd for $set {
                type Output = Self;

                fn bitand(self, other: Self) -> Self {
                    self.intersection(other)
                }
            }

            impl BitAndAssign for $set {
                fn bitand_assign(&mut self, other: Self) {
                    *self = self.intersection(other);
                }
            }

            impl BitXor for $set {
                type Output = Self;

                fn bitxor(self, other: Self) -> Self {
                    self.symmetric_difference(other)
                }
            }

            impl BitXorAssign for $set {
                fn bitxor_assign(&mut self, other: Self) {
                    self.toggle(other);
                }
            }

            impl Sub for $set {
                type Output = Self;

                fn sub(self, other: Self) -> Self {
                    self.difference(other)
                }
            }

            impl SubAssign for $set {
                fn sub_assign(&mut self, other: Self) {
                    self.remove(other);
                }
            }

            impl Not for $set {
                type Output = Self;

                fn not(self) -> Self {
                    self.complement()
                }
            }

            impl PartialEq for $set {
                fn eq(&self, other: &Self) -> bool {
                    self.0 == other.0
                }
            }

            impl Eq for $set {}
        )*
    };
}

sets_of_flags!(BufferFlags: u32, SerializeFlags: u8, UnicodeProps: u16, GlyphPropsFlags: u16);
