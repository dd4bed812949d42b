//! What a font says of its glyphs.

use crate::Fail;
use crate::shapers::upright::upright;
use vukhaso::internals::common::GlyphId;
use vukhaso::internals::glyph::{GlyphExtents, GlyphNames, hb_glyph_info_t};
use vukhaso::internals::ot_shape::{Face, FaceNames};
use vukhaso::memory::AllocError;

/// A letter, its glyph, and the glyph's advance across and origin.
static LETTERS: [(char, u16, i32, (i32, i32)); 3] = [
    ('a', 3, 410, (205, 850)),
    ('b', 4, 420, (210, 880)),
    ('c', 5, 430, (215, 850)),
];

/// The glyph of a letter, its two advances and its origin.
fn measured(face: &Face, letter: char) -> Option<(u16, i32, i32, (i32, i32))> {
    let glyph = face.glyph_index(letter as u32)?;
    let origin = face.vertical_origin(glyph).ok()?;
    let (across, down) = (face.glyph_hor_advance(glyph), face.glyph_ver_advance(glyph));
    Some((glyph.0, across, down, origin))
}

/// Asserts what the font says of letters, and of one that it does not have.
fn assert_letters(face: &Face) {
    assert_eq!(face.units_per_em(), 1000);
    assert!(face.number_of_glyphs() > 5);
    for (letter, glyph, across, origin) in &LETTERS {
        let wanted = Some((*glyph, *across, -1000, *origin));
        assert_eq!(measured(face, *letter), wanted, "{letter}");
        assert!(face.has_glyph(*letter), "{letter}");
    }
    assert!(face.glyph_index(0x78).is_none());
    assert!(!face.has_glyph('x'));
    assert!(face.glyph_variation_index(0x61, 0xFE00).is_none());
}

/// The glyphs, advances and origins of a letter.
#[test]
fn letters_have_glyphs_and_advances() -> Result<(), Fail> {
    assert_letters(&upright()?);
    Ok(())
}

/// A glyph of this id.
fn glyph(id: u32) -> hb_glyph_info_t {
    hb_glyph_info_t {
        glyph_id: id,
        ..hb_glyph_info_t::default()
    }
}

/// Bounds in the order of HarfBuzz's texts.
fn bounds(found: Option<GlyphExtents>) -> Option<[i32; 4]> {
    let found = found?;
    Some([found.x_bearing, found.y_bearing, found.width, found.height])
}

/// Asserts the names and the bounds of glyphs, of which one is none of the font's and is asked for
/// twice.
fn assert_names(names: &mut FaceNames) -> Result<(), AllocError> {
    assert_eq!(names.glyph_name(GlyphId(3)), Some("a"));
    assert!(names.glyph_name(GlyphId(999)).is_none());
    assert!(names.glyph_extents(GlyphId(3)).is_none());
    names.find_extents(&[glyph(999), glyph(3), glyph(999)])?;
    let found = bounds(names.glyph_extents(GlyphId(3)));
    assert_eq!(found, Some([20, 390, 300, -400]));
    assert!(names.glyph_extents(GlyphId(999)).is_none());
    Ok(())
}

/// The bounds and the names of glyphs.
#[test]
fn letters_have_bounds_and_names() -> Result<(), Fail> {
    let face = upright()?;
    let found = bounds(face.glyph_extents(GlyphId(4))?);
    assert_eq!(found, Some([100, 340, 290, -340]));
    assert!(face.glyph_extents(GlyphId(999))?.is_none());
    let mut names = FaceNames::new(&face)?;
    assert_names(&mut names)?;
    Ok(())
}

/// Bytes that are no font.
#[test]
fn bytes_that_are_no_font_have_no_face() -> Result<(), Fail> {
    assert!(Face::parse_if_there(b"no font", 0)?.is_none());
    assert!(Face::parse_if_there(&[], 0)?.is_none());
    Ok(())
}
