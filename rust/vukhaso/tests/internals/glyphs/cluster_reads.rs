use crate::glyphs::lists::glyphs;
use vukhaso::internals::glyph_lists::cluster_reads::ClusterReads;

#[test]
fn each_cluster_that_is_read_is_counted() {
    let out = glyphs([4, 3]);
    let input = glyphs([3, 1, 5]);
    let mut reads = ClusterReads::new(&out, &input);
    assert!(reads.len() == 5);
    assert!(reads.reads() == 0);
    for (i, cluster) in [(1, 3), (0, 4), (4, 5), (2, 3), (4, 5)] {
        assert!(i < reads.len() && reads.reads() < 5, "{i}");
        assert!(reads.cluster(i) == cluster, "{i}");
    }
    assert!(reads.reads() == 5);
}
