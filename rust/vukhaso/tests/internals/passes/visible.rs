use crate::passes::texts::{assert_characters, buffer_of};
use vukhaso::internals::buffer::{
    BufferFlags, GlyphId, UnicodeProps, hb_buffer_t, hb_glyph_info_t,
};
use vukhaso::internals::passes::hide_default_ignorables;

/// The buffer's flags, its invisible glyph, and what is left of a, U+200D ZERO WIDTH JOINER and b.
static CASES: [(BufferFlags, Option<GlyphId>, &str); 4] = [
    (BufferFlags::DEFINED, Some(GlyphId(3)), "a\u{200d}b"),
    (BufferFlags::BEGINNING_OF_TEXT, Some(GlyphId(3)), "a\u{3}b"),
    (BufferFlags::BEGINNING_OF_TEXT, None, "ab"),
    (
        BufferFlags::REMOVE_DEFAULT_IGNORABLES,
        Some(GlyphId(3)),
        "ab",
    ),
];

#[test]
fn ignorables_are_hidden() {
    for (flags, invisible, want) in &CASES {
        let buffer = hidden(*flags, *invisible);
        assert_characters(buffer.info(), want, want);
    }
}

/// The letters once ignorables are hidden.
fn hidden(flags: BufferFlags, invisible: Option<GlyphId>) -> hb_buffer_t {
    let mut buffer = joined_letters();
    buffer.flags = flags;
    buffer.invisible = invisible;
    hide_default_ignorables(&mut buffer);
    buffer
}

/// The two letters with a joiner between them, which is marked as ignorable.
fn joined_letters() -> hb_buffer_t {
    let mut buffer = buffer_of("a\u{200D}b");
    mark_joiners(buffer.info_slice_mut());
    buffer
}

/// Marks joiners as ignorable.
fn mark_joiners(glyphs: &mut [hb_glyph_info_t]) {
    for glyph in glyphs.iter_mut() {
        if glyph.glyph_id == 0x200D {
            glyph.set_unicode_props(UnicodeProps::IGNORABLE.bits());
        }
    }
}
