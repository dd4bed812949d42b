use crate::Fail;
use vukhaso::internals::common::GlyphId;
use vukhaso::internals::font_tables::glyph_names::PostNames;

/// A table `post` with names of its own for the glyphs 1 and 2, and a number that it has no name for.
const POST: &[u8] = &[
    0, 2, 0, 0, 0, 0, 0, 0, 0, 0, 0, 0, 0, 0, 0, 0, 0, 0, 0, 0, 0, 0, 0, 0, 0, 0, 0, 0, 0, 0, 0,
    0, // header
    0, 5, 0, 0, 1, 2, 1, 3, 0, 36, 1, 4, // numbers
    2, b'a', b'b', 1, b'c', // names
];

/// Tables, glyphs, and their names. Version 1 has the order of the Macintosh, and version 3 no names.
static NAMES: [(&[u8], u16, Option<&[u8]>); 13] = [
    (POST, 0, Some(b".notdef")),
    (POST, 1, Some(b"ab")),
    (POST, 2, Some(b"c")),
    (POST, 3, Some(b"A")),
    (POST, 4, None),
    (POST, 5, None),
    (&[0, 1, 0, 0], 0, Some(b".notdef")),
    (&[0, 1, 0, 0], 97, Some(b"asciitilde")),
    (&[0, 1, 0, 0], 170, Some(b"guillemotright")),
    (&[0, 1, 0, 0], 257, Some(b"dcroat")),
    (&[0, 1, 0, 0], 258, None),
    (&[0, 3, 0, 0], 3, None),
    (&[], 3, None),
];

/// Whether a glyph has a name in a table, or none.
fn has_name(post: &[u8], glyph: u16, name: Option<&[u8]>) -> Result<bool, Fail> {
    let names = PostNames::new(post)?;
    Ok(names.name(GlyphId(glyph)) == name)
}

#[test]
fn post_names_glyphs() -> Result<(), Fail> {
    for &(post, glyph, name) in &NAMES {
        assert!(has_name(post, glyph, name)?, "{glyph} in {post:?}");
    }
    Ok(())
}
