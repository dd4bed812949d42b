use crate::Fail;
use crate::buffer_tests::probes::traits::Five;
use vukhaso::internals::glyph::{GlyphPosition, SerializeFlags, hb_glyph_info_t};
use vukhaso::internals::glyph_text::serialize::*;

/// The texts of the glyphs 5 and 6 below, a line for each set of flags.
const TEXTS: &str = "\
five=0@2,-3+-10,-1|gid6=7+0\n\
five@2,-3+-10,-1|gid6+0\n\
five=0|gid6=7\n\
five|gid6\n\
5=0@2,-3+-10,-1|6=7+0\n\
5@2,-3+-10,-1|6+0\n\
5=0|6=7\n\
5|6\n\
five=0@2,-3+-10,-1<1,-2,3,-4>|gid6=7+0<0,0,0,0>\n\
five@2,-3+-10,-1<1,-2,3,-4>|gid6+0<0,0,0,0>\n\
five=0<1,-2,3,-4>|gid6=7<0,0,0,0>\n\
five<1,-2,3,-4>|gid6<0,0,0,0>\n\
5=0@2,-3+-10,-1<1,-2,3,-4>|6=7+0<0,0,0,0>\n\
5@2,-3+-10,-1<1,-2,3,-4>|6+0<0,0,0,0>\n\
5=0<1,-2,3,-4>|6=7<0,0,0,0>\n\
5<1,-2,3,-4>|6<0,0,0,0>\n\
five=0@2,-3+-10,-1#3|gid6=7+0\n\
five@2,-3+-10,-1#3|gid6+0\n\
five=0#3|gid6=7\n\
five#3|gid6\n\
5=0@2,-3+-10,-1#3|6=7+0\n\
5@2,-3+-10,-1#3|6+0\n\
5=0#3|6=7\n\
5#3|6\n\
five=0@2,-3+-10,-1#3<1,-2,3,-4>|gid6=7+0<0,0,0,0>\n\
five@2,-3+-10,-1#3<1,-2,3,-4>|gid6+0<0,0,0,0>\n\
five=0#3<1,-2,3,-4>|gid6=7<0,0,0,0>\n\
five#3<1,-2,3,-4>|gid6<0,0,0,0>\n\
5=0@2,-3+-10,-1#3<1,-2,3,-4>|6=7+0<0,0,0,0>\n\
5@2,-3+-10,-1#3<1,-2,3,-4>|6+0<0,0,0,0>\n\
5=0#3<1,-2,3,-4>|6=7<0,0,0,0>\n\
5#3<1,-2,3,-4>|6<0,0,0,0>\n\
five=0@2,-3|gid6=7@-10,-1\n\
five@2,-3|gid6@-10,-1\n\
five=0|gid6=7\n\
five|gid6\n\
5=0@2,-3|6=7@-10,-1\n\
5@2,-3|6@-10,-1\n\
5=0|6=7\n\
5|6\n\
five=0@2,-3<1,-2,3,-4>|gid6=7@-10,-1<0,0,0,0>\n\
five@2,-3<1,-2,3,-4>|gid6@-10,-1<0,0,0,0>\n\
five=0<1,-2,3,-4>|gid6=7<0,0,0,0>\n\
five<1,-2,3,-4>|gid6<0,0,0,0>\n\
5=0@2,-3<1,-2,3,-4>|6=7@-10,-1<0,0,0,0>\n\
5@2,-3<1,-2,3,-4>|6@-10,-1<0,0,0,0>\n\
5=0<1,-2,3,-4>|6=7<0,0,0,0>\n\
5<1,-2,3,-4>|6<0,0,0,0>\n\
five=0@2,-3#3|gid6=7@-10,-1\n\
five@2,-3#3|gid6@-10,-1\n\
five=0#3|gid6=7\n\
five#3|gid6\n\
5=0@2,-3#3|6=7@-10,-1\n\
5@2,-3#3|6@-10,-1\n\
5=0#3|6=7\n\
5#3|6\n\
five=0@2,-3#3<1,-2,3,-4>|gid6=7@-10,-1<0,0,0,0>\n\
five@2,-3#3<1,-2,3,-4>|gid6@-10,-1<0,0,0,0>\n\
five=0#3<1,-2,3,-4>|gid6=7<0,0,0,0>\n\
five#3<1,-2,3,-4>|gid6<0,0,0,0>\n\
5=0@2,-3#3<1,-2,3,-4>|6=7@-10,-1<0,0,0,0>\n\
5@2,-3#3<1,-2,3,-4>|6@-10,-1<0,0,0,0>\n\
5=0#3<1,-2,3,-4>|6=7<0,0,0,0>\n\
5#3<1,-2,3,-4>|6<0,0,0,0>\n\
";

fn glyph_five() -> hb_glyph_info_t {
    hb_glyph_info_t {
        glyph_id: 5,
        mask: 0xFFFF_FFFB,
        ..hb_glyph_info_t::default()
    }
}

fn glyph_six() -> hb_glyph_info_t {
    hb_glyph_info_t {
        glyph_id: 6,
        cluster: 7,
        ..hb_glyph_info_t::default()
    }
}

fn placed() -> GlyphPosition {
    GlyphPosition {
        x_advance: -10,
        y_advance: -1,
        x_offset: 2,
        y_offset: -3,
        var: 0,
    }
}

/// The text of the glyph 65535, the highest that a name is asked of, and of no glyph.
#[test]
fn the_highest_glyph_is_named_by_its_number() -> Result<(), Fail> {
    let info = hb_glyph_info_t {
        glyph_id: 65535,
        ..hb_glyph_info_t::default()
    };
    let flags = SerializeFlags::GLYPH_EXTENTS;
    let text = glyphs_text(&Five, flags, &[info], &[GlyphPosition::default()])?;
    assert!(text.as_str() == "gid65535=0+0<0,0,0,0>");
    let nothing = glyphs_text(&Five, flags, &[], &[])?;
    assert!(nothing.is_empty());
    Ok(())
}

/// The glyph 5 of cluster 0 has all of a mask's bits but one, an offset and advances below 0, and the
/// glyph 6 of cluster 7 has none of these.
#[test]
fn each_set_of_flags_tells_its_pieces() -> Result<(), Fail> {
    let infos = [glyph_five(), glyph_six()];
    let positions = [placed(), GlyphPosition::default()];
    for (bits, want) in (0u8..64).zip(TEXTS.lines()) {
        let flags = SerializeFlags::from_bits_retain(bits);
        let text = glyphs_text(&Five, flags, &infos, &positions)?;
        assert!(text.as_str() == want, "{bits}");
    }
    Ok(())
}

/// The text of a number past 16 bits, which is that of no glyph although its low 16 bits are the number
/// of one.
#[test]
fn a_number_past_16_bits_has_no_name() -> Result<(), Fail> {
    let info = hb_glyph_info_t {
        glyph_id: 0x1_0005,
        ..hb_glyph_info_t::default()
    };
    let text = glyphs_text(
        &Five,
        SerializeFlags::GLYPH_EXTENTS,
        &[info],
        &[GlyphPosition::default()],
    )?;
    assert!(text.as_str() == "gid65541=0+0<0,0,0,0>");
    Ok(())
}
