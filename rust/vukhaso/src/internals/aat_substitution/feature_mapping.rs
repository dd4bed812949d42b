// Written by tools/plain_rust from crates/aat_substitution. Do not edit.

//! Which feature of Apple's stands for a feature of OpenType: its type, and the settings that turn it on and off (HarfBuzz,
//! `feature_mappings`; Apple's TrueType Reference Manual, "Font feature registry").

use crate::common::Tag;
use crate::glyph::row_search::row_at;

/// A feature of OpenType, and the feature of Apple's that stands for it.
#[derive(Clone, Copy, PartialEq, Eq, Debug)]
pub struct FeatureMapping {
    /// The tag of the OpenType feature.
    pub tag: Tag,
    /// The type of Apple's feature.
    pub kind: u16,
    /// The setting that turns it on.
    pub enable: u16,
    /// The setting that turns it off.
    pub disable: u16,
}

/// The features, in the order of their tags: the tag, the type of Apple's feature, and the settings that turn it on and off.
static FEATURES: [(u32, u16, u16, u16); 78] = [
    (0x61667263, 11, 1, 0),   // afrc
    (0x63327063, 38, 2, 0),   // c2pc
    (0x63327363, 38, 1, 0),   // c2sc
    (0x63616C74, 36, 0, 1),   // calt
    (0x63617365, 33, 0, 1),   // case
    (0x636C6967, 1, 18, 19),  // clig
    (0x63707370, 33, 2, 3),   // cpsp
    (0x63737768, 36, 4, 5),   // cswh
    (0x646C6967, 1, 4, 5),    // dlig
    (0x65787074, 20, 10, 16), // expt
    (0x66726163, 11, 2, 0),   // frac
    (0x66776964, 22, 1, 7),   // fwid
    (0x68616C74, 22, 6, 7),   // halt
    (0x68697374, 40, 0, 1),   // hist
    (0x686B6E61, 34, 0, 1),   // hkna
    (0x686C6967, 1, 20, 21),  // hlig
    (0x686E676C, 23, 1, 0),   // hngl
    (0x686F6A6F, 20, 12, 16), // hojo
    (0x68776964, 22, 2, 7),   // hwid
    (0x6974616C, 32, 2, 3),   // ital
    (0x6A703034, 20, 11, 16), // jp04
    (0x6A703738, 20, 2, 16),  // jp78
    (0x6A703833, 20, 3, 16),  // jp83
    (0x6A703930, 20, 4, 16),  // jp90
    (0x6C696761, 1, 2, 3),    // liga
    (0x6C6E756D, 21, 1, 2),   // lnum
    (0x6D67726B, 15, 10, 11), // mgrk
    (0x6E6C636B, 20, 13, 16), // nlck
    (0x6F6E756D, 21, 0, 2),   // onum
    (0x6F72646E, 10, 3, 0),   // ordn
    (0x70616C74, 22, 5, 7),   // palt
    (0x70636170, 37, 2, 0),   // pcap
    (0x706B6E61, 22, 0, 7),   // pkna
    (0x706E756D, 6, 1, 4),    // pnum
    (0x70776964, 22, 0, 7),   // pwid
    (0x71776964, 22, 4, 7),   // qwid
    (0x726C6967, 1, 0, 1),    // rlig
    (0x72756279, 28, 2, 3),   // ruby
    (0x73696E66, 10, 4, 0),   // sinf
    (0x736D6370, 37, 1, 0),   // smcp
    (0x736D706C, 20, 1, 16),  // smpl
    (0x73733031, 35, 2, 3),   // ss01
    (0x73733032, 35, 4, 5),   // ss02
    (0x73733033, 35, 6, 7),   // ss03
    (0x73733034, 35, 8, 9),   // ss04
    (0x73733035, 35, 10, 11), // ss05
    (0x73733036, 35, 12, 13), // ss06
    (0x73733037, 35, 14, 15), // ss07
    (0x73733038, 35, 16, 17), // ss08
    (0x73733039, 35, 18, 19), // ss09
    (0x73733130, 35, 20, 21), // ss10
    (0x73733131, 35, 22, 23), // ss11
    (0x73733132, 35, 24, 25), // ss12
    (0x73733133, 35, 26, 27), // ss13
    (0x73733134, 35, 28, 29), // ss14
    (0x73733135, 35, 30, 31), // ss15
    (0x73733136, 35, 32, 33), // ss16
    (0x73733137, 35, 34, 35), // ss17
    (0x73733138, 35, 36, 37), // ss18
    (0x73733139, 35, 38, 39), // ss19
    (0x73733230, 35, 40, 41), // ss20
    (0x73756273, 10, 2, 0),   // subs
    (0x73757073, 10, 1, 0),   // sups
    (0x73777368, 36, 2, 3),   // swsh
    (0x7469746C, 19, 4, 0),   // titl
    (0x746E616D, 20, 14, 16), // tnam
    (0x746E756D, 6, 0, 4),    // tnum
    (0x74726164, 20, 0, 16),  // trad
    (0x74776964, 22, 3, 7),   // twid
    (0x756E6963, 3, 14, 15),  // unic
    (0x76616C74, 22, 5, 7),   // valt
    (0x76657274, 4, 0, 1),    // vert
    (0x7668616C, 22, 6, 7),   // vhal
    (0x766B6E61, 34, 2, 3),   // vkna
    (0x7670616C, 22, 5, 7),   // vpal
    (0x76727432, 4, 0, 1),    // vrt2
    (0x76727472, 4, 2, 3),    // vrtr
    (0x7A65726F, 14, 4, 5),   // zero
];

/// The feature of Apple's that stands for an OpenType feature; `None` where there is none.
///
/// # Proved
///
/// ```text
/// ensures is { result ≡ mapping_of tag }
/// ensures tag { IfSome result (λ mapping. mapping.tag ≡ tag) }
/// ```
#[inline]
pub fn mapping_of(tag: Tag) -> Option<FeatureMapping> {
    let (kind, enable, disable) = settings_of(&FEATURES, tag.0)?;
    Some(FeatureMapping {
        tag,
        kind,
        enable,
        disable,
    })
}

/// What the row of a tag holds.
///
/// # Requires
///
/// - `IsTrue (tags_rise rows.now)`
fn settings_of(rows: &[(u32, u16, u16, u16)], tag: u32) -> Option<(u16, u16, u16)> {
    row_at(rows, |row| row.0.cmp(&tag)).map(|row| (row.1, row.2, row.3))
}
