//! The features of a user as settings of a font, and the flags of chains that they turn on.

use crate::aat::tables::bytes_of;
use vukhaso::internals::aat_substitution::{ChainFlags, mapping_of, selected_features};
use vukhaso::internals::aat_tables::{FeatureNames, Metamorphosis};
use vukhaso::internals::common::Tag;
use vukhaso::internals::text::Feature;
use vukhaso::memory::AllocError;

/// Common ligatures, whose settings go together, and alternates, of which one alone is on.
const FEAT: [u16; 20] = [
    1, 0, 2, 0, 0, 0, 1, 1, 0, 36, 0, 300, 17, 1, 0, 36, 0x8000, 301, 2, 256,
];

/// A chain that common ligatures turn on and off.
const MORX: [u16; 38] = [
    2, 0, 0, 1, 0, 0, 0, 68, 0, 2, 0, 1, 1, 2, 0, 1, 0xFFFF, 0xFFFF, 1, 3, 0, 0, 0xFFFF, 0xFFFE, 0,
    28, 0, 4, 0, 1, 6, 4, 1, 4, 0, 0, 5, 9,
];

/// A feature that part of a text has.
fn feature(tag: &[u8; 4], value: u32, start: u32, end: u32) -> Feature {
    Feature {
        tag: Tag::from_bytes(tag),
        value,
        start,
        end,
    }
}

/// The flags of the chain in the parts of a text with these features, and the last one of the second
/// part's cluster 3.
fn flags_of(features: &[Feature]) -> Result<(usize, u32, u32, bool), AllocError> {
    let feat = bytes_of(&FEAT)?;
    let morx = bytes_of(&MORX)?;
    let names = FeatureNames::new(feat.as_slice());
    let table = Metamorphosis::new(morx.as_slice(), 20)?;
    let selected = selected_features(&names, features)?;
    let flags = ChainFlags::new(&table, selected.as_slice())?;
    Ok((
        flags.part_count(),
        flags.flags(0, flags.part_of(0)),
        flags.flags(0, flags.part_of(3)),
        flags.has_any(0, 1),
    ))
}

#[test]
fn features_stand_for_settings() {
    let ligatures = mapping_of(Tag::from_bytes(b"liga"));
    assert_eq!(
        ligatures.map(|row| (row.kind, row.enable, row.disable)),
        Some((1, 2, 3))
    );
    assert!(mapping_of(Tag::from_bytes(b"kern")).is_none());
}

#[test]
fn settings_are_selected_where_the_font_has_them() {
    let feat = bytes_of(&FEAT).unwrap();
    let names = FeatureNames::new(feat.as_slice());
    let features = [
        feature(b"smcp", 1, 0, 9),
        feature(b"liga", 0, 2, 5),
        feature(b"aalt", 7, 0, 9),
    ];
    let selected = selected_features(&names, &features).unwrap();
    assert_eq!(selected.len(), 2);
    let (first, second) = (&selected[0], &selected[1]);
    assert_eq!(
        (
            first.kind,
            first.setting,
            first.is_exclusive,
            first.start,
            first.end
        ),
        (1, 3, false, 2, 5)
    );
    assert_eq!(
        (second.kind, second.setting, second.is_exclusive),
        (17, 7, true)
    );
}

#[test]
fn flags_are_on_where_a_setting_is_selected() {
    let everywhere = [feature(b"liga", 1, 0, 0xFFFF_FFFF)];
    assert!(matches!(flags_of(&everywhere), Ok((1, 1, 1, true))));
    assert!(matches!(flags_of(&[]), Ok((1, 0, 0, false))));
    let part = [feature(b"liga", 1, 2, 5)];
    assert!(matches!(flags_of(&part), Ok((3, 0, 1, true))));
    let both = [
        feature(b"liga", 0, 0, 0xFFFF_FFFF),
        feature(b"liga", 1, 2, 5),
    ];
    assert!(matches!(flags_of(&both), Ok((3, 0, 0, false))));
}
