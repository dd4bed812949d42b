//! Tests of tags: tables, and complex cases. `rows/calls/tags.calls` has scripts and languages of every form.
use crate::Fail;
use vukhaso::internals::text::{
    ComplexLanguages, Language, LanguageTable, NoComplexLanguages, SmallVecExt, Tag, ThreeTags,
    tags_from_script_and_language,
};

/// Languages, and the tags of scripts and of languages that they have with no script and over [`TABLE`].
static ROWS_OF_TABLE: [(&str, &[Tag], &[Tag]); 20] = [
    ("a", &[], &[Tag(0x41202020)]),
    ("aa", &[], &[Tag(0x41413120)]),
    ("aaa", &[], &[]),
    ("aab", &[], &[Tag(0x41414220)]),
    ("ab", &[], &[Tag(0x41423120), Tag(0x41423220)]),
    ("ab-x-hbsc", &[], &[Tag(0x41423120), Tag(0x41423220)]),
    ("ab-x-hbotabc", &[], &[Tag(0x41424320)]),
    ("abc", &[], &[Tag(0x41424331)]),
    ("abc-de", &[], &[Tag(0x41424331)]),
    ("ar-ary", &[], &[Tag(0x4d4f5220)]),
    ("ar-ary-x-y", &[], &[Tag(0x4d4f5220)]),
    ("ar-ary1", &[], &[]),
    ("ar-1ry", &[], &[]),
    ("a-ary", &[], &[Tag(0x41202020)]),
    ("-a-ary", &[], &[]),
    ("en-x-hbscdflt", &[Tag(0x44464c54)], &[Tag(0x454e4720)]),
    ("en-ary1-a-foo", &[], &[Tag(0x454e4720)]),
    ("xy-ml", &[], &[]),
    (
        "zz",
        &[],
        &[Tag(0x5a5a3120), Tag(0x5a5a3220), Tag(0x5a5a3320)],
    ),
    ("zzz", &[], &[Tag(0x5a5a5a20)]),
];

static TABLE: [(&str, Tag); 17] = [
    ("a", Tag(0x41202020)),
    ("aa", Tag(0x41413120)),
    ("aa", Tag(0)),
    ("aa", Tag(0x41413220)),
    ("aaa", Tag(0)),
    ("aaa", Tag(0x41414120)),
    ("ab", Tag(0x41423120)),
    ("ab", Tag(0x41423220)),
    ("abc", Tag(0x41424331)),
    ("ary", Tag(0x4d4f5220)),
    ("en", Tag(0x454e4720)),
    ("ml", Tag(0x4d414c20)),
    ("ml", Tag(0x4d4c5220)),
    ("zz", Tag(0x5a5a3120)),
    ("zz", Tag(0x5a5a3220)),
    ("zz", Tag(0x5a5a3320)),
    ("zz", Tag(0x5a5a3420)),
];

/// Every prefix is a complex case, with no tags.
struct NoTags;

impl ComplexLanguages for NoTags {
    fn tags(&self, _prefix: &str) -> Option<ThreeTags> {
        Some(ThreeTags::new())
    }
}

/// Every prefix is a complex case, with the tags 1, 2 and 3.
struct OneTwoThree;

impl ComplexLanguages for OneTwoThree {
    fn tags(&self, _prefix: &str) -> Option<ThreeTags> {
        Some(ThreeTags::from([Tag(1), Tag(2), Tag(3)]))
    }
}

fn assert_tags(
    table: &LanguageTable<'_>,
    (text, scripts, languages): &(&str, &[Tag], &[Tag]),
) -> Result<(), Fail> {
    let language = Language::from_str(text)?;
    let (found_scripts, found_languages) =
        tags_from_script_and_language(None, Some(&language), table, &NoComplexLanguages);
    assert!(found_scripts.as_slice() == *scripts, "{text}");
    assert!(found_languages.as_slice() == *languages, "{text}");
    Ok(())
}

#[test]
fn rows_of_a_table() -> Result<(), Fail> {
    let table = LanguageTable::new(&TABLE).ok_or("no table")?;
    for row in &ROWS_OF_TABLE {
        assert_tags(&table, row)?;
    }
    Ok(())
}

/// The tags of `zz`, which has some in the table.
fn language_tags(complex: &impl ComplexLanguages) -> Result<ThreeTags, Fail> {
    let table = LanguageTable::new(&TABLE).ok_or("no table")?;
    let language = Language::from_str("zz")?;
    let (_, tags) = tags_from_script_and_language(None, Some(&language), &table, complex);
    Ok(tags)
}

#[test]
fn complex_cases_come_before_the_table() -> Result<(), Fail> {
    assert!(language_tags(&NoTags)?.left() == 3);
    let three = language_tags(&OneTwoThree)?;
    assert!(three.as_slice() == [Tag(1), Tag(2), Tag(3)].as_slice());
    assert!(SmallVecExt::is_full(&three));
    Ok(())
}

const ONE: Tag = Tag(1);

/// Rows, and whether they are a table.
static TABLES: [(&[(&str, Tag)], bool); 8] = [
    (&[], true),
    (&[("a", ONE), ("a", ONE), ("b", ONE)], true),
    (&[("b", ONE), ("a", ONE)], false),
    (&[("a", ONE), ("b", ONE), ("a", ONE)], false),
    (&[("", ONE)], false),
    (&[("A", ONE)], false),
    (&[("\u{e9}", ONE)], false),
    (&[("a-b", ONE)], false),
];

#[test]
fn keys_of_a_table_never_fall() {
    for (rows, is_table) in &TABLES {
        assert!(LanguageTable::new(rows).is_some() == *is_table, "{rows:?}");
    }
}
