//! Tests of other names of a script, and of texts in any case. The constants by name are tested by the package for Rust, in
//! `rust/vukhaso/tests/scripts.rs`: here each would cost half a second of proof.
use vukhaso::internals::text::Tag;
use vukhaso::internals::text::script::Script;

/// Texts, and the scripts that they name.
static OTHER_NAMES: [(&str, &str); 17] = [
    ("Qaai", "Zinh"),
    ("Qaac", "Copt"),
    ("Aran", "Arab"),
    ("Cyrs", "Cyrl"),
    ("Geok", "Geor"),
    ("Hans", "Hani"),
    ("hANT", "Hani"),
    ("Jamo", "Hang"),
    ("Latf", "Latn"),
    ("Latg", "Latn"),
    ("Syre", "Syrc"),
    ("Syrj", "Syrc"),
    ("Syrn", "Syrc"),
    ("wWyZ", "Wwyz"),
    ("1234", "Zzzz"),
    ("ab", "Zzzz"),
    ("Abc", "Zzzz"),
];

/// Tags with other bytes than letters, and the tags of their scripts. In title case a tag is in the columns of the
/// letters where its bits 0xE0E0E0E0 are 0x40606060; else it names the unknown script, `Zzzz`.
static COLUMNS: [(u32, u32); 6] = [
    (0x41626320, 0x5a7a7a7a),
    (0x407b7e7f, 0x407b7e7f),
    (0x1f626364, 0x5a7a7a7a),
    (0x41206364, 0x5a7a7a7a),
    (0xc1626364, 0x5a7a7a7a),
    (0x416263e4, 0x5a7a7a7a),
];

#[test]
fn texts_name_scripts_in_any_case_and_by_other_names() {
    for (text, code) in &OTHER_NAMES {
        assert!(text.parse::<Script>() == code.parse::<Script>(), "{text}");
    }
    assert!("".parse::<Script>() == Err("invalid script"));
    assert!(Script::from_iso15924_tag(Tag(0)).is_none());
}

#[test]
fn tags_in_the_columns_of_the_letters_name_scripts_of_their_own() {
    for &(number, script) in &COLUMNS {
        let named = Script::from_iso15924_tag(Tag(number)).map(|found| found.tag());
        assert!(named == Some(Tag(script)), "{number}");
    }
}
