use crate::Fail;
use vukhaso::internals::glyph::hb_glyph_info_t;
use vukhaso::internals::glyph_lists::cluster_numbers::reset_clusters;

fn glyph(glyph_id: u32, cluster: u32) -> hb_glyph_info_t {
    hb_glyph_info_t {
        glyph_id,
        mask: 3,
        cluster,
        var1: 5,
        var2: 7,
    }
}

#[test]
fn clusters_are_numbered_by_their_places() -> Result<(), Fail> {
    let mut info = [glyph(10, 9), glyph(20, 9), glyph(30, 4)];
    reset_clusters(&mut info);
    for (i, g) in info.iter().enumerate() {
        assert!(g.cluster as usize == i, "{i}");
        assert!((g.mask, g.var1, g.var2) == (3, 5, 7), "{i}");
    }
    assert!((info[0].glyph_id, info[1].glyph_id, info[2].glyph_id) == (10, 20, 30));
    Ok(())
}
