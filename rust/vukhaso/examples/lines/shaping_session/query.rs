// Written by tools/plain_rust from crates/shaping_session. Do not edit.

//! What is asked of no text: features, tags of scripts and languages, and how characters compose and decompose.

use crate::shaping_session::reply::Reply;
use vukhaso::internals::glyph::{Compositions, Decompositions};
use vukhaso::internals::text::{
    Feature, Language, LanguageTable, NoComplexLanguages, Script, Tag,
    tags_from_script_and_language,
};
use vukhaso::memory::{AllocError, String};

/// The feature that a text reads as: its tag in hexadecimal digits, its value, its start and its end. A
/// text that is none takes no memory.
///
/// # Errors
///
/// `Err(AllocError)` where memory ran out.
///
/// # Proved
///
/// ```text
/// ensures answer { IfOk result (λ reply. AnswersFeature text.now (reply_text reply)) }
/// ensures memory { OnErr result ((f : Feature) × ReadsAs text.now f) }
/// ```
#[inline]
pub fn feature(text: &str) -> Result<Reply, AllocError> {
    match text.parse::<Feature>() {
        Ok(feature) => Ok(Reply::Text(print_feature(feature)?)),
        Err(_) => Ok(Reply::Word("invalid feature")),
    }
}

fn print_feature(feature: Feature) -> Result<String, AllocError> {
    let tag = print_tag(feature.tag.as_u32())?;
    let value = feature.value;
    let start = feature.start;
    let end = feature.end;
    Ok(String::format(format_args!("{tag} {value} {start} {end}"))?)
}

fn print_tag(tag: u32) -> Result<String, AllocError> {
    Ok(String::format(format_args!("{tag:08x}"))?)
}

/// The OpenType tags of a script and of a language, in hexadecimal digits. The table has one row, and
/// no language is a complex case.
///
/// # Errors
///
/// `Err(AllocError)` where memory ran out.
///
/// # Proved
///
/// ```text
/// ensures { IfOk result (λ reply. reply_text reply
///     ≡ tags_text script (option_copied language.entry)) }
/// ```
#[inline]
pub fn tags(script: Option<Script>, language: Option<&str>) -> Result<Reply, AllocError> {
    let language = language_of(language)?;
    let rows = [("ml", Tag::from_bytes(b"MAL "))];
    let Some(table) = LanguageTable::new(&rows) else {
        return Ok(Reply::none());
    };
    let (scripts, languages) =
        tags_from_script_and_language(script, language.as_ref(), &table, &NoComplexLanguages);
    let text = print_tag_lists(scripts.as_slice(), languages.as_slice())?;
    Ok(Reply::Text(text))
}

/// The language of a text. The word of a line is not empty, so only memory can be wanting.
fn language_of(text: Option<&str>) -> Result<Option<Language>, AllocError> {
    let Some(text) = text else {
        return Ok(None);
    };
    match Language::from_str(text) {
        Ok(language) => Ok(Some(language)),
        Err(_) => Err(AllocError),
    }
}

/// The tags of a script, and those of a language.
fn print_tag_lists(scripts: &[Tag], languages: &[Tag]) -> Result<String, AllocError> {
    let scripts = print_tags(scripts)?;
    let languages = print_tags(languages)?;
    Ok(String::format(format_args!(
        "scripts{scripts} languages{languages}"
    ))?)
}

/// Tags, each with a space before it.
fn print_tags(tags: &[Tag]) -> Result<String, AllocError> {
    let mut text = String::new();
    for tag in tags {
        write_tag(&mut text, tag.as_u32())?;
    }
    Ok(text)
}

fn write_tag(text: &mut String, tag: u32) -> Result<(), AllocError> {
    let tag = print_tag(tag)?;
    write!(text, " {tag}")
}

/// The character that two characters compose to by the rule of Hangul alone, in hexadecimal digits. Two
/// that do not compose take no memory.
///
/// # Errors
///
/// `Err(AllocError)` where memory ran out.
///
/// # Proved
///
/// ```text
/// ensures answer { IfOk result (λ reply. AnswersCompose a b (reply_text reply)) }
/// ensures memory { OnErr result (¬ ((s : ℕ) → ¬ HangulComposes s a b)) }
/// ```
#[inline]
pub fn compose(a: char, b: char) -> Result<Reply, AllocError> {
    let Some(c) = composed(a, b) else {
        return Ok(Reply::none());
    };
    let c = u32::from(c);
    Ok(Reply::Text(String::format(format_args!("{c:x}"))?))
}

/// The two characters that a character decomposes to by the rule of Hangul alone, in hexadecimal
/// digits. One that does not decompose takes no memory.
///
/// # Errors
///
/// `Err(AllocError)` where memory ran out.
///
/// # Proved
///
/// ```text
/// ensures answer { IfOk result (λ reply. AnswersDecompose c (reply_text reply)) }
/// ensures memory { OnErr result (¬ ((a b : ℕ) → ¬ HangulComposes c a b)) }
/// ```
#[inline]
pub fn decompose(c: char) -> Result<Reply, AllocError> {
    let Some((a, b)) = decomposed(c) else {
        return Ok(Reply::none());
    };
    let a = u32::from(a);
    let b = u32::from(b);
    Ok(Reply::Text(String::format(format_args!("{a:x} {b:x}"))?))
}

/// What two characters compose to where no table has a row.
fn composed(a: char, b: char) -> Option<char> {
    let table = Compositions::new(&[])?;
    vukhaso::internals::glyph::compose(&table, a, b)
}

/// What a character decomposes to where no table has a row.
fn decomposed(c: char) -> Option<(char, char)> {
    let table = Decompositions::new(&[])?;
    vukhaso::internals::glyph::decompose(&table, c)
}
