use crate::Fail;
use vukhaso::internals::glyph::{CombiningClasses, hb_buffer_scratch_flags_t, hb_glyph_info_t};

/// Characters, their properties and the scratch flags that they set, where U+0301 has class 230
/// and U+0651 class 33.
static PROPERTIES: [(char, u16, hb_buffer_scratch_flags_t); 14] = [
    ('a', 5, 0),
    ('\u{80}', 0, 1),
    ('\u{301}', 0xe68c, 1),
    ('\u{34f}', 0xec, 0x13),
    ('\u{651}', 0x1b8c, 1),
    ('\u{903}', 0x8a, 1),
    ('\u{180d}', 0xec, 3),
    ('\u{180e}', 0x21, 3),
    ('\u{180f}', 0xec, 3),
    ('\u{1a60}', 0xfe8c, 1),
    ('\u{200c}', 0x221, 3),
    ('\u{200d}', 0x121, 3),
    ('\u{e001f}', 0x22, 3),
    ('\u{e007f}', 0x61, 3),
];

#[test]
fn a_character_is_given_its_properties() -> Result<(), Fail> {
    let rows = [('\u{301}', 230), ('\u{651}', 33)];
    let classes = CombiningClasses::new(&rows).ok_or("two rows")?;
    for &(c, props, scratch) in &PROPERTIES {
        let mut info = hb_glyph_info_t {
            glyph_id: c as u32,
            var2: 0x5678_ffff,
            ..hb_glyph_info_t::default()
        };
        let mut scratch_flags = 0x0100_0000;
        info.init_unicode_props(&mut scratch_flags, &classes);
        assert!(info.var2 == 0x5678_0000 | props as u32, "{c:?}");
        assert!(scratch_flags == 0x0100_0000 | scratch, "{c:?}");
    }
    Ok(())
}
