// Written by tools/plain_rust from crates/font_tables. Do not edit.

//! Tables `GDEF` that HarfBuzz ignores, by their sizes.

/// The sizes of `GDEF`, `GSUB` and `GPOS`, in bytes, of fonts whose `GDEF` takes characters for marks that are none: versions
/// of Times New Roman, Tahoma, Courier New, Microsoft Himalaya, Cantarell and Padauk.
static SIZES: [(usize, usize, usize); 40] = [
    (442, 2874, 42038),
    (430, 2874, 40662),
    (442, 2874, 39116),
    (430, 2874, 39374),
    (490, 3046, 41638),
    (478, 3046, 41902),
    (898, 12554, 46470),
    (910, 12566, 47732),
    (928, 23298, 59332),
    (940, 23310, 60732),
    (964, 23836, 60072),
    (976, 23832, 61456),
    (994, 24474, 60336),
    (1006, 24470, 61740),
    (1006, 24576, 61346),
    (1018, 24572, 62828),
    (1006, 24576, 61352),
    (1018, 24572, 62834),
    (832, 7324, 47162),
    (844, 7302, 45474),
    (180, 13054, 7254),
    (192, 12638, 7254),
    (192, 12690, 7254),
    (188, 248, 3852),
    (188, 264, 3426),
    (1058, 47032, 11818),
    (1046, 47030, 12600),
    (1058, 71796, 16770),
    (1046, 71790, 17862),
    (1046, 71788, 17112),
    (1058, 71794, 17514),
    (1330, 109904, 57938),
    (1330, 109904, 58972),
    (1004, 59092, 14836),
    (588, 5078, 14418),
    (588, 5078, 14238),
    (894, 17162, 33960),
    (894, 17154, 34472),
    (816, 7868, 17052),
    (816, 7868, 17138),
];

/// Whether a font with tables `GDEF`, `GSUB` and `GPOS` of so many bytes is one of those whose `GDEF`
/// is wrong: HarfBuzz shapes it as if it had none.
///
/// # Proved
///
/// ```text
/// ensures { result ≡ is_ignored gdef gsub gpos }
/// ```
#[inline]
pub fn is_ignored(gdef: usize, gsub: usize, gpos: usize) -> bool {
    SIZES
        .iter()
        .any(|sizes| sizes.0 == gdef && sizes.1 == gsub && sizes.2 == gpos)
}
