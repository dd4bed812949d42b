// Written by tools/plain_rust from crates/ot_tags. Do not edit.

//! The tags that follow from more than the first subtag of a language.

use crate::ot_tags::subtags::{first_subtag, has_subtag, is_same};
use crate::ot_tags::tags_of_language::LanguageTags;

/// Chinese, and the languages of China that are written as it is.
static CHINESE: [&str; 15] = [
    "zh", "cdo", "cjy", "cmn", "cnp", "cpx", "csp", "czh", "czo", "gan", "hak", "hsn", "mnp",
    "nan", "wuu",
];

/// The tags of a variant or a script that has one of its own in any language, from the subtags behind
/// the first.
pub(crate) fn tags_of_variant(subtags: &[u8]) -> Option<LanguageTags> {
    if has_subtag(subtags, b"fonnapa") {
        Some(LanguageTags::one(b"APPH"))
    } else if has_subtag(subtags, b"polyton") {
        Some(LanguageTags::one(b"PGR "))
    } else if has_subtag(subtags, b"arevmda") {
        Some(LanguageTags::one(b"HYE "))
    } else if has_subtag(subtags, b"provenc") {
        Some(LanguageTags::one(b"PRO "))
    } else if has_subtag(subtags, b"fonipa") {
        Some(LanguageTags::one(b"IPPH"))
    } else if has_subtag(subtags, b"geok") {
        Some(LanguageTags::one(b"KGE "))
    } else if has_subtag(subtags, b"syre") {
        Some(LanguageTags::one(b"SYRE"))
    } else if has_subtag(subtags, b"syrj") {
        Some(LanguageTags::one(b"SYRJ"))
    } else if has_subtag(subtags, b"syrn") {
        Some(LanguageTags::one(b"SYRN"))
    } else {
        None
    }
}

/// The tags of a whole name that BCP 47 keeps from before it had subtags.
pub(crate) fn tags_of_name(language: &[u8]) -> Option<LanguageTags> {
    if is_same(language, b"art-lojban") {
        Some(LanguageTags::one(b"JBO "))
    } else if is_same(language, b"i-hak") {
        Some(LanguageTags::one(b"ZHS "))
    } else if is_same(language, b"i-lux") {
        Some(LanguageTags::one(b"LTZ "))
    } else if is_same(language, b"i-navajo") {
        Some(LanguageTags::two(b"NAV ", b"ATH "))
    } else if is_same(language, b"no-bok") {
        Some(LanguageTags::one(b"NOR "))
    } else if is_same(language, b"no-nyn") {
        Some(LanguageTags::one(b"NYN "))
    } else if is_same(language, b"zh-min") {
        Some(LanguageTags::one(b"ZHS "))
    } else if is_same(language, b"zh-min-nan") {
        Some(LanguageTags::one(b"ZHS "))
    } else {
        None
    }
}

/// Tags that a language has where it passes a test.
fn tags_if(test: bool, tags: LanguageTags) -> Option<LanguageTags> {
    if test { Some(tags) } else { None }
}

/// The tags of a language with a script or a region beside it.
pub(crate) fn tags_of_region(language: &[u8], subtags: &[u8]) -> Option<LanguageTags> {
    let (script, _) = first_subtag(subtags);
    if is_same(language, b"lzh") {
        tags_if(is_same(script, b"hans"), LanguageTags::one(b"ZHS "))
    } else if is_same(language, b"yue") {
        tags_if(is_same(script, b"hans"), LanguageTags::one(b"ZHS "))
    } else if is_same(language, b"ga") {
        tags_if(is_same(script, b"latg"), LanguageTags::one(b"IRT "))
    } else if is_same(language, b"mnw") {
        tags_if(has_subtag(subtags, b"th"), LanguageTags::one(b"MONT"))
    } else if is_same(language, b"ro") {
        tags_if(
            has_subtag(subtags, b"md"),
            LanguageTags::two(b"MOL ", b"ROM "),
        )
    } else if is_chinese(language) {
        tags_of_chinese(subtags)
    } else {
        None
    }
}

/// Whether a language is one of those with these names.
fn is_one_of(names: &[&str], language: &[u8]) -> bool {
    names.iter().any(|name| is_same(name.as_bytes(), language))
}

/// Whether a language is Chinese, or one of the languages of China that are written as it is.
fn is_chinese(language: &[u8]) -> bool {
    is_one_of(&CHINESE, language)
}

/// The tags of Chinese, by its script and its region. The script right behind the language decides.
fn tags_of_chinese(subtags: &[u8]) -> Option<LanguageTags> {
    let (script, behind) = first_subtag(subtags);
    let (region, _) = first_subtag(behind);
    if is_same(script, b"hant") {
        Some(tags_of_traditional(region))
    } else if is_same(script, b"hans") {
        Some(LanguageTags::one(b"ZHS "))
    } else {
        tags_of_chinese_region(subtags)
    }
}

/// The tags of Chinese in the traditional script: those of Hong Kong or Macao where that is right
/// behind the script.
fn tags_of_traditional(region: &[u8]) -> LanguageTags {
    if is_same(region, b"hk") {
        LanguageTags::one(b"ZHH ")
    } else if is_same(region, b"mo") {
        LanguageTags::two(b"ZHTM", b"ZHH ")
    } else {
        LanguageTags::one(b"ZHT ")
    }
}

/// The tags of Chinese, by its region alone.
fn tags_of_chinese_region(subtags: &[u8]) -> Option<LanguageTags> {
    if has_subtag(subtags, b"hk") {
        Some(LanguageTags::one(b"ZHH "))
    } else if has_subtag(subtags, b"mo") {
        Some(LanguageTags::two(b"ZHTM", b"ZHH "))
    } else if has_subtag(subtags, b"tw") {
        Some(LanguageTags::one(b"ZHT "))
    } else {
        None
    }
}
