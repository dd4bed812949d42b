//! Tests of how values are printed by `Debug`.
use crate::Fail;
use vukhaso::internals::text::{
    Direction, Feature, GlyphId, Language, LanguageError, LanguageTable, Tag, script,
};
use vukhaso::memory::String;

#[test]
fn values_are_printed_by_their_fields() -> Result<(), Fail> {
    let kern = Feature {
        tag: Tag(2),
        value: 1,
        start: 0,
        end: 5,
    };
    let english = Language::from_str("EN")?;
    let table = LanguageTable::new(&[]).ok_or("no table")?;
    let printed = String::format(format_args!(
        "{kern:?} {:?} {:?} {english:?} {table:?}",
        GlyphId(7),
        script::LATIN
    ))?;
    assert!(
        printed.as_str()
            == "Feature { tag: Tag(2), value: 1, start: 0, end: 5 } GlyphId(7) Script(Tag(1281455214)) \
         Language(\"en\") LanguageTable { rows: [] }"
    );
    let printed = String::format(format_args!(
        "{:?} {:?}",
        Direction::RightToLeft,
        LanguageError::Memory
    ))?;
    assert!(printed.as_str() == "RightToLeft Memory");
    Ok(())
}
