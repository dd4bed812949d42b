// Written by tools/plain_rust from crates/shaping_buffer. Do not edit.

//! The shaping buffer of HarfBuzz, proved: glyphs with clusters, edited at a cursor, texts in and out.
//!
//! A text goes in by [`UnicodeBuffer`], becomes an [`hb_buffer_t`], is edited by its calls, and leaves as a
//! [`GlyphBuffer`] and its text.

pub use crate::glyph::{
    BufferFlags, CharExt, CombiningClasses, Compositions, Decompositions, Flags,
    GeneralCategoryExt, GlyphExtents, GlyphInfo, GlyphNames, GlyphPosition, GlyphPropsFlags,
    HB_BUFFER_SCRATCH_FLAG_DEFAULT, HB_BUFFER_SCRATCH_FLAG_HAS_BROKEN_SYLLABLE,
    HB_BUFFER_SCRATCH_FLAG_HAS_CGJ, HB_BUFFER_SCRATCH_FLAG_HAS_DEFAULT_IGNORABLES,
    HB_BUFFER_SCRATCH_FLAG_HAS_GLYPH_FLAGS, HB_BUFFER_SCRATCH_FLAG_HAS_GPOS_ATTACHMENT,
    HB_BUFFER_SCRATCH_FLAG_HAS_NON_ASCII, HB_BUFFER_SCRATCH_FLAG_HAS_SPACE_FALLBACK,
    HB_BUFFER_SCRATCH_FLAG_HAS_VARIATION_SELECTOR_FALLBACK, HB_BUFFER_SCRATCH_FLAG_SHAPER0,
    Mirrors, NoGlyphNames, SerializeFlags, UnicodeProps, glyph_flag, hb_buffer_scratch_flags_t,
    hb_glyph_info_t, hb_unicode_general_category_t,
};
pub use crate::glyph_lists::cluster_reads::ClusterReads;
pub use crate::glyph_lists::merge_range::merge_range;
pub use crate::text::{
    Direction, Feature, GlyphId, Language, LanguageError, Script, Tag, TagExt, TextParser,
    hb_codepoint_t, script,
};
pub use buffer::hb_buffer_t;
pub use cluster_group::_cluster_group_func;
pub use cluster_level::{
    BufferClusterLevel, HB_BUFFER_CLUSTER_LEVEL_CHARACTERS, HB_BUFFER_CLUSTER_LEVEL_DEFAULT,
    HB_BUFFER_CLUSTER_LEVEL_GRAPHEMES, HB_BUFFER_CLUSTER_LEVEL_MONOTONE_CHARACTERS,
    HB_BUFFER_CLUSTER_LEVEL_MONOTONE_GRAPHEMES, hb_buffer_cluster_level_t,
};
pub use glyph_buffer::GlyphBuffer;
pub use unicode_buffer::UnicodeBuffer;

mod buffer;
pub mod cluster_group;
pub mod cluster_level;
mod glyph_buffer;
mod unicode_buffer;
