//! Glyphs as JSON.

use super::font::Five;
use crate::Fail;
use vukhaso::internals::glyph::{GlyphPosition, SerializeFlags, hb_glyph_info_t};
use vukhaso::internals::line_formats::json::glyphs_json;

/// Flags, and the objects of the glyphs 5 and 6 below.
static OBJECTS: [(&[SerializeFlags], &str); 6] = [
    (
        &[],
        r#"{"g":"a\"b\\","cl":0,"dx":2,"dy":-3,"ax":-10,"ay":-1},{"g":"gid6","cl":7,"dx":0,"dy":0,"ax":0,"ay":0}"#,
    ),
    (
        &[SerializeFlags::NO_GLYPH_NAMES, SerializeFlags::NO_CLUSTERS],
        r#"{"g":5,"dx":2,"dy":-3,"ax":-10,"ay":-1},{"g":6,"dx":0,"dy":0,"ax":0,"ay":0}"#,
    ),
    (
        &[SerializeFlags::NO_POSITIONS, SerializeFlags::GLYPH_FLAGS],
        r#"{"g":"a\"b\\","cl":0,"fl":3},{"g":"gid6","cl":7}"#,
    ),
    (
        &[SerializeFlags::NO_ADVANCES],
        r#"{"g":"a\"b\\","cl":0,"dx":2,"dy":-3},{"g":"gid6","cl":7,"dx":-10,"dy":-1}"#,
    ),
    (
        &[SerializeFlags::NO_ADVANCES, SerializeFlags::NO_POSITIONS],
        r#"{"g":"a\"b\\","cl":0},{"g":"gid6","cl":7}"#,
    ),
    (
        &[SerializeFlags::NO_POSITIONS, SerializeFlags::GLYPH_EXTENTS],
        r#"{"g":"a\"b\\","cl":0,"xb":1,"yb":-2,"w":3,"h":-4},{"g":"gid6","cl":7,"xb":0,"yb":0,"w":0,"h":0}"#,
    ),
];

fn glyph(glyph_id: u32, mask: u32, cluster: u32) -> hb_glyph_info_t {
    hb_glyph_info_t {
        glyph_id,
        mask,
        cluster,
        ..hb_glyph_info_t::default()
    }
}

#[test]
fn glyphs_are_objects() -> Result<(), Fail> {
    let infos = [glyph(5, 0xFFFF_FFFB, 0), glyph(6, 0, 7)];
    let placed = GlyphPosition {
        x_advance: -10,
        y_advance: -1,
        x_offset: 2,
        y_offset: -3,
        var: 0,
    };
    let positions = [placed, GlyphPosition::default()];
    for (flags, objects) in &OBJECTS {
        let flags = flags
            .iter()
            .fold(SerializeFlags::empty(), |all, flag| all.union(*flag));
        let written = glyphs_json(&Five, flags, &infos, &positions)?;
        assert!(written.as_slice() == objects.as_bytes(), "{objects}");
    }
    let nothing = glyphs_json(&Five, SerializeFlags::empty(), &[], &[])?;
    assert!(nothing.is_empty());
    Ok(())
}
