//! Which script and which language system is chosen.

use crate::layout::plan::TABLE;
use vukhaso::internals::common::Tag;
use vukhaso::internals::ot_map::LayoutTable;
use vukhaso::internals::ot_map::builder::ChosenTable;
use vukhaso::internals::ot_map::choice::{
    ChosenScript, feature_count, required_feature, select_language, select_script,
};

/// The lists of a table.
fn lists_of(table: &[u8]) -> LayoutTable<'_> {
    LayoutTable::new(table)
}

/// The tag of a feature of the list.
fn tag_of(feature: u16) -> Option<Tag> {
    lists_of(TABLE).feature_tag(feature)
}

/// The first feature with a tag.
fn first_with(tag: &[u8; 4]) -> Option<u16> {
    lists_of(TABLE).first_feature(Tag::from_bytes(tag))
}

/// The table of a feature of the list.
fn feature_table(feature: u16) -> &'static [u8] {
    lists_of(TABLE).feature_table(feature)
}

#[test]
fn features_are_listed() {
    assert_eq!(tag_of(0), Some(Tag::from_bytes(b"liga")));
    assert_eq!(tag_of(3), Some(Tag::from_bytes(b"smcp")));
    assert!(tag_of(4).is_none());
    assert_eq!(first_with(b"frac"), Some(2));
    assert!(first_with(b"kern").is_none());
    assert_eq!(feature_table(2), &TABLE[108..]);
    assert!(feature_table(4).is_empty());
}

/// Whether a table has lists of scripts and of features, and how many lookups it has.
fn summary_of(table: &[u8]) -> (bool, bool, u16) {
    let lists = lists_of(table);
    let has_scripts = !lists.scripts.is_empty();
    (has_scripts, !lists.features.is_empty(), lists.lookup_count)
}

/// A table of another version has nothing.
#[test]
fn other_versions_have_nothing() {
    assert_eq!(summary_of(TABLE), (true, true, 3));
    assert_eq!(summary_of(&[0, 2, 0, 0, 0, 10]), (false, false, 0));
}

/// The script that is chosen of a table.
fn chosen<'a>(table: &'a [u8], scripts: &[Tag]) -> ChosenScript<'a> {
    select_script(lists_of(table).scripts, scripts)
}

/// Its tag, and whether it is one of those that were asked for.
fn choice(table: &[u8], scripts: &[Tag]) -> (Tag, bool) {
    let script = chosen(table, scripts);
    (script.tag, script.is_found)
}

/// The first of a text's scripts that the table has, or else its default one.
#[test]
fn scripts_are_chosen() {
    let (latin, cyrillic) = (Tag::from_bytes(b"latn"), Tag::from_bytes(b"cyrl"));
    assert_eq!(choice(TABLE, &[cyrillic, latin]), (latin, true));
    assert_eq!(
        choice(TABLE, &[cyrillic]),
        (Tag::from_bytes(b"DFLT"), false)
    );
    let none = chosen(&[], &[latin]);
    assert!(none.tag.is_null());
    assert!(none.table.is_empty());
}

/// The required feature of a script's language system, and how many others it has.
fn system_of(script: &[u8], language: &[u8; 4]) -> (Option<u16>, usize) {
    let system = select_language(script, &[Tag::from_bytes(language)]);
    (required_feature(system), feature_count(system))
}

/// The language system of a language, or else the default one.
#[test]
fn languages_are_chosen() {
    let latin = chosen(TABLE, &[Tag::from_bytes(b"latn")]).table;
    assert_eq!(system_of(latin, b"TRK "), (Some(1), 1));
    assert_eq!(system_of(latin, b"ROM "), (None, 4));
    assert_eq!(system_of(&[], b"ROM "), (None, 0));
}

/// Whether the chosen language system of a script has a feature.
fn has_feature(script: &[u8; 4], feature: &[u8; 4]) -> bool {
    ChosenTable::new(TABLE, &[Tag::from_bytes(script)], &[]).has_feature(Tag::from_bytes(feature))
}

#[test]
fn features_are_of_the_language_system() {
    assert!(has_feature(b"latn", b"smcp"));
    assert!(!has_feature(b"grek", b"smcp"));
    assert!(has_feature(b"grek", b"liga"));
}
