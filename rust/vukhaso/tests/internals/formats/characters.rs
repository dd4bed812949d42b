//! Lists of characters.

use crate::Fail;
use vukhaso::internals::glyph::hb_glyph_info_t;
use vukhaso::internals::line_formats::characters::characters_list;
use vukhaso::memory::{TryIterator, Vec};

/// Characters with clusters, and their list.
static LISTS: [(&[(u32, u32)], &str); 4] = [
    (&[], ""),
    (&[(0x61, 0)], "<U+0061=0>"),
    (
        &[(0x627, 0), (0x1F600, 1), (0x10FFFF, 5)],
        "<U+0627=0|U+1F600=1|U+10FFFF=5>",
    ),
    (
        &[(0, 12), (0xFFF_FFFF, 3), (0xFFFF_FFFF, u32::MAX)],
        "<U+0000=12|U+FFFFFFF=3|U+FFFFFFFF=4294967295>",
    ),
];

#[test]
fn characters_are_listed() -> Result<(), Fail> {
    for (characters, list) in &LISTS {
        let infos: Vec<hb_glyph_info_t> = characters
            .iter()
            .map(|(glyph_id, cluster)| hb_glyph_info_t {
                glyph_id: *glyph_id,
                cluster: *cluster,
                ..hb_glyph_info_t::default()
            })
            .try_into_vec()?;
        let written = characters_list(infos.as_slice())?;
        assert!(written.as_slice() == list.as_bytes(), "{list}");
    }
    Ok(())
}
