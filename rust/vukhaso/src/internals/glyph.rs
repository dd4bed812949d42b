// Written by tools/plain_rust from crates/rb_glyph. Do not edit.

//! Characters, and glyphs, their positions and their flags, as a text shaper holds them.

pub mod algs;
mod categories;
pub mod category;
pub mod characters;
pub mod fields;
pub mod flag_sets;
pub mod glyph_flag;
pub mod hangul;
pub mod hb_gc;
pub mod hb_unicode_funcs_t;
pub mod info;
pub mod modified_combining_class;
pub mod names;
pub mod normalize;
pub mod position;
mod ranges;
pub mod row_search;
pub mod scratch;
mod scripts;
pub mod tables;
mod unicode_props;

pub use crate::bitflags::Flags;
pub use algs::{rb_flag, rb_flag_range, rb_flag_unsafe, rb_flag64, rb_flag64_unsafe};
pub use category::{GeneralCategoryExt, hb_unicode_general_category_t};
pub use characters::CharExt;
pub use flag_sets::{BufferFlags, GlyphPropsFlags, SerializeFlags, UnicodeProps};
pub use hangul::{compose_hangul, decompose_hangul};
pub use hb_unicode_funcs_t::space_t;
pub use info::{GlyphInfo, hb_glyph_info_t};
pub use names::{GlyphExtents, GlyphNames, NoGlyphNames};
pub use normalize::{compose, decompose};
pub use position::GlyphPosition;
pub use scratch::{
    HB_BUFFER_SCRATCH_FLAG_DEFAULT, HB_BUFFER_SCRATCH_FLAG_HAS_BROKEN_SYLLABLE,
    HB_BUFFER_SCRATCH_FLAG_HAS_CGJ, HB_BUFFER_SCRATCH_FLAG_HAS_DEFAULT_IGNORABLES,
    HB_BUFFER_SCRATCH_FLAG_HAS_GLYPH_FLAGS, HB_BUFFER_SCRATCH_FLAG_HAS_GPOS_ATTACHMENT,
    HB_BUFFER_SCRATCH_FLAG_HAS_NON_ASCII, HB_BUFFER_SCRATCH_FLAG_HAS_SPACE_FALLBACK,
    HB_BUFFER_SCRATCH_FLAG_HAS_VARIATION_SELECTOR_FALLBACK, HB_BUFFER_SCRATCH_FLAG_SHAPER0,
    hb_buffer_scratch_flags_t,
};
pub use tables::{CombiningClasses, Compositions, Decompositions, Mirrors};
