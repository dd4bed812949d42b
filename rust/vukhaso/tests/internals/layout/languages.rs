//! The OpenType tags of languages, as OpenType's registry of language systems and HarfBuzz have them.

use crate::Fail;
use vukhaso::internals::ot_tags::LanguageTags;
use vukhaso::internals::text::{
    Language, LanguageTable, Tag, ThreeTags, tags_from_script_and_language,
};

/// Languages, and their tags of four bytes each.
static LANGUAGES: [(&str, &str); 68] = [
    ("zh", "ZHS "),
    ("zh-cn", "ZHS "),
    ("zh-sg", "ZHS "),
    ("zh-tw", "ZHT "),
    ("zh-hans", "ZHS "),
    ("zh-hant", "ZHT "),
    ("zh-hant-hk", "ZHH "),
    ("zh-hk", "ZHH "),
    ("zh-mo", "ZHTMZHH "),
    ("zh-hant-mo", "ZHTMZHH "),
    ("zh-hant-tw", "ZHT "),
    ("zh-latn-hk", "ZHH "),
    ("dv", "DIV DHV "),
    ("ro", "ROM "),
    ("ro-md", "MOL ROM "),
    ("mo", "MOL ROM "),
    ("sr", "SRB "),
    ("en", "ENG "),
    ("ja", "JAN "),
    ("fa", "FAR "),
    ("tr", "TRK "),
    ("de", "DEU "),
    ("sh", "BOS HRV SRB "),
    ("abs", "CPP "),
    ("aba", ""),
    ("mrj", "HMA "),
    ("xyz", "XYZ "),
    ("xyz-latn", "XYZ "),
    ("q", ""),
    ("qq", ""),
    ("ga", "IRI IRT "),
    ("ga-latg", "IRT "),
    ("el", "ELL "),
    ("el-polyton", "PGR "),
    ("hy", "HYE0HYE "),
    ("hy-arevela", "HYE0HYE "),
    ("hy-arevmda", "HYE "),
    ("oc-provenc", "PRO "),
    ("und-fonipa", "IPPH"),
    ("en-fonnapa-x-y", "APPH"),
    ("ka-geok", "KGE "),
    ("syr", "SYR "),
    ("syr-syre", "SYRE"),
    ("syr-syrj", "SYRJ"),
    ("syr-syrn", "SYRN"),
    ("mnw", "MON MONT"),
    ("mnw-th", "MONT"),
    ("yue", "ZHH "),
    ("yue-hans", "ZHS "),
    ("zh-yue", "ZHH "),
    ("zh-yue-hk", "ZHH "),
    ("lzh-hans", "ZHS "),
    ("nan-tw", "ZHT "),
    ("art-lojban", "JBO "),
    ("art-lojban-x-a", "ART "),
    ("i-hak", "ZHS "),
    ("i-lux", "LTZ "),
    ("i-navajo", "NAV ATH "),
    ("no-bok", "NOR "),
    ("no-nyn", "NYN "),
    ("zh-min", "ZHS "),
    ("zh-min-nan", "ZHS "),
    ("zh-u-co-hk", "ZHS "),
    ("en-u-hk", "ENG "),
    ("qq-abc", ""),
    ("qq-aao", "ARA "),
    ("aa", "AFR "),
    ("zyp", "QIN "),
];

/// The tags of a language.
fn tags_of(language: Option<&Language>) -> Option<ThreeTags> {
    let table = LanguageTable::new(&[])?;
    let found = LanguageTags::of(language);
    let (_, tags) = tags_from_script_and_language(None, language, &table, &found);
    Some(tags)
}

/// Whether tags have these bytes.
fn have_bytes(tags: &ThreeTags, bytes: &[u8]) -> bool {
    if tags.len() != bytes.len() / 4 {
        return false;
    }
    for (tag, letters) in tags.iter().zip(bytes.chunks(4)) {
        if *tag != Tag::from_bytes_lossy(letters) {
            return false;
        }
    }
    true
}

/// Whether a language has the tags of these bytes.
fn has_tags(language: Option<&Language>, bytes: &str) -> bool {
    match tags_of(language) {
        Some(tags) => have_bytes(&tags, bytes.as_bytes()),
        None => false,
    }
}

/// No language has no tags.
#[test]
fn languages_have_their_tags() -> Result<(), Fail> {
    for &(name, expected) in &LANGUAGES {
        let language = Language::from_str(name)?;
        assert!(has_tags(Some(&language), expected), "{name}");
    }
    assert!(has_tags(None, ""));
    Ok(())
}
