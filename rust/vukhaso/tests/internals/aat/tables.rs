//! Lookup tables, state tables, and the tables `feat`, `morx` and `trak`.

use vukhaso::internals::aat_tables::glyph_rows::GlyphRows;
use vukhaso::internals::aat_tables::tracking::Tracking;
use vukhaso::internals::aat_tables::{
    Entry, FeatureNames, Lookup, Metamorphosis, StateTable, SubtableKind,
};
use vukhaso::internals::font_tables::bytes::part;
use vukhaso::memory::{AllocError, Vec};

/// A table in numbers of 16 bits.
pub(crate) fn bytes_of(words: &[u16]) -> Result<Vec<u8>, AllocError> {
    let mut bytes = Vec::new();
    for word in words {
        bytes.push((*word / 256) as u8)?;
        bytes.push((*word % 256) as u8)?;
    }
    Ok(bytes)
}

#[test]
fn lists_have_a_value_for_each_glyph() {
    let table = bytes_of(&[0, 7, 8, 9, 10]).unwrap();
    let lookup = Lookup::new(table.as_slice(), 3);
    assert_eq!(
        (lookup.value(0), lookup.value(2), lookup.value(3)),
        (Some(7), Some(9), None)
    );
    assert!(lookup.digest().may_have(2));
    assert_eq!(lookup.cost(), 1);
}

#[test]
fn trimmed_lists_have_values_from_the_first_glyph_on() {
    let table = bytes_of(&[8, 3, 2, 40, 41]).unwrap();
    let lookup = Lookup::new(table.as_slice(), 10);
    let values = (
        lookup.value(2),
        lookup.value(3),
        lookup.value(4),
        lookup.value(5),
    );
    assert_eq!(values, (None, Some(40), Some(41), None));
    assert_eq!(
        (lookup.digest().may_have(4), lookup.digest().may_have(5)),
        (true, false)
    );
}

#[test]
fn segments_have_one_value_or_a_list() {
    let single = [2, 6, 3, 12, 1, 6, 4, 2, 70, 9, 8, 71, 0xFFFF, 0xFFFF, 0];
    let table = bytes_of(&single).unwrap();
    let lookup = Lookup::new(table.as_slice(), 20);
    let values = (
        lookup.value(1),
        lookup.value(2),
        lookup.value(4),
        lookup.value(5),
    );
    assert_eq!(values, (None, Some(70), Some(70), None));
    assert_eq!((lookup.value(9), lookup.value(0xFFFF)), (Some(71), None));
    assert_eq!((lookup.rows().count, lookup.cost()), (2, 2));
    let listed = [4, 6, 1, 6, 0, 0, 4, 2, 18, 80, 81, 82];
    let table = bytes_of(&listed).unwrap();
    let lookup = Lookup::new(table.as_slice(), 20);
    let values = (lookup.value(2), lookup.value(4), lookup.value(5));
    assert_eq!(values, (Some(80), Some(82), None));
}

#[test]
fn rows_of_one_glyph_are_searched() {
    let table = bytes_of(&[6, 4, 3, 8, 1, 4, 5, 50, 7, 51, 9, 52]).unwrap();
    let lookup = Lookup::new(table.as_slice(), 20);
    let values = (
        lookup.value(5),
        lookup.value(6),
        lookup.value(7),
        lookup.value(9),
    );
    assert_eq!(values, (Some(50), None, Some(51), Some(52)));
    let rows = GlyphRows {
        table: table.as_slice(),
        size: 4,
        skip: 0,
        count: 3,
    };
    assert_eq!(
        (rows.row_of(9), rows.row_of(8), rows.first(1), rows.last(2)),
        (Some(2), None, Some(7), Some(9))
    );
}

/// An entry with one number.
fn entry_of(new_state: u16, flags: u16, number: u16) -> Entry {
    let data = [number, 0xFFFF];
    Entry {
        new_state,
        flags,
        data,
    }
}

#[test]
fn entries_are_those_of_states_and_classes() {
    let words = [
        0, 5, 0, 16, 0, 26, 0, 56, 8, 10, 2, 4, 9, 0, 0, 0, 0, 1, 0, 0, 0, 0, 0, 1, 1, 1, 1, 0, 0,
        0, 0, 2, 0x4000, 5,
    ];
    let table = bytes_of(&words).unwrap();
    let machine = StateTable::new(table.as_slice(), 20, 1);
    assert!(machine.is_some());
    let machine = machine.unwrap();
    let classes = (
        machine.class(10),
        machine.class(11),
        machine.class(12),
        machine.class(0xFFFF),
    );
    assert_eq!(classes, (4, 9, 1, 2));
    assert_eq!(machine.entry(0, 4), Some(entry_of(2, 0x4000, 5)));
    assert_eq!(machine.entry(0, 9), Some(entry_of(0, 0, 0)));
    assert!(machine.entry(3, 4).is_none());
}

#[test]
fn a_state_table_has_four_classes() {
    let table = bytes_of(&[0, 3, 0, 16, 0, 26, 0, 56]).unwrap();
    assert!(StateTable::new(table.as_slice(), 20, 0).is_none());
}

#[test]
fn features_are_found_by_their_types() {
    let words = [
        1, 0, 2, 0, 0, 0, 1, 2, 0, 36, 0, 300, 17, 3, 0, 44, 0xC002, 301, 2, 256, 4, 257, 0, 258,
        1, 259, 2, 260,
    ];
    let table = bytes_of(&words).unwrap();
    let names = FeatureNames::new(table.as_slice());
    assert_eq!((names.is_there(), names.feature(2).is_none()), (true, true));
    assert_eq!(
        (names.feature(1).is_some(), names.feature(17).is_some()),
        (true, true)
    );
    let ligatures = names.feature(1).unwrap();
    let alternates = names.feature(17).unwrap();
    assert_eq!(
        (ligatures.is_exclusive(), alternates.is_exclusive()),
        (false, true)
    );
    assert_eq!(
        (
            ligatures.setting(0),
            ligatures.setting(1),
            ligatures.setting(2)
        ),
        (Some(2), Some(4), None)
    );
}

#[test]
fn chains_have_features_and_subtables() {
    let words = [
        2, 0, 0, 1, 0, 3, 0, 56, 0, 1, 0, 1, 1, 2, 0, 4, 0xFFFF, 0xFFFE, 0, 28, 0x4000, 4, 0, 1, 6,
        4, 1, 4, 0, 0, 5, 9,
    ];
    let table = bytes_of(&words).unwrap();
    let read = Metamorphosis::new(table.as_slice(), 20).unwrap();
    assert_eq!((read.chains.len(), read.subtables.len()), (1, 1));
    let chain = read.chains.first().unwrap();
    assert_eq!(
        (read.is_there(), chain.default_flags, chain.feature_count()),
        (true, 3, 1)
    );
    let feature = chain.feature(0).map(|feature| {
        (
            feature.kind,
            feature.setting,
            feature.enable,
            feature.disable,
        )
    });
    assert_eq!(feature, Some((1, 2, 4, 0xFFFF_FFFE)));
    assert_eq!(read.subtables_of(chain).len(), 1);
    let subtable = read.subtables_of(chain).first().unwrap();
    assert_eq!(
        (subtable.kind == SubtableKind::Noncontextual, subtable.flags),
        (true, 1)
    );
    assert_eq!(
        (
            subtable.coverage.is_backwards,
            subtable.coverage.is_vertical
        ),
        (true, false)
    );
    assert_eq!(subtable.kind.data_count(), 0);
    let cut = Metamorphosis::new(part(table.as_slice(), 0, 63), 20).unwrap();
    assert!(!cut.is_there());
}

#[test]
fn tracks_are_between_those_of_two_sizes() {
    let words = [
        1, 0, 0, 12, 0, 0, 1, 2, 0, 28, 0, 0, 256, 36, 10, 0, 20, 0, 100, 0xFFCE,
    ];
    let table = bytes_of(&words).unwrap();
    let tracking = Tracking::new(table.as_slice());
    assert!(tracking.is_there());
    assert_eq!(
        (
            tracking.at(true, 10.0),
            tracking.at(true, 15.0),
            tracking.at(true, 20.0)
        ),
        (100, 25, -50)
    );
    assert_eq!(
        (tracking.at(false, 15.0), tracking.scaled(25, 2000, 1000)),
        (0, 50)
    );
}
