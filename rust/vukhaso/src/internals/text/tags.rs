// Written by tools/plain_rust from crates/rb_text. Do not edit.

//! The OpenType tags of a script and a language, by which a font's features are found.

use crate::arrayvec::ArrayVec;
use crate::common::script::{self, Script};
use crate::common::tag::{TAG_LEN, Tag, TagExt};
use crate::text::language::Language;
use crate::text::language_cut::{from_first, key, prefix, private_use};
use crate::text::language_table::LanguageTable;

/// The most tags that a script or a language has here.
pub const MAX_TAGS: usize = 3;

/// The bit that makes the first letter of a tag small.
const SMALL_FIRST_LETTER: u32 = 0x20000000;

/// Up to three tags, the best first.
pub type ThreeTags = ArrayVec<Tag, MAX_TAGS>;

/// The room that is left in a list of tags.
///
/// # Proved
///
/// ```text
/// ghost room: { Self → ℕ }
/// ```
pub trait SmallVecExt {
    /// How many more tags there is room for.
    ///
    /// # Proved
    ///
    /// ```text
    /// ensures { result ≡ room self.now }
    /// ```
    fn left(&self) -> usize;

    /// Whether there is room for no more tag.
    ///
    /// # Proved
    ///
    /// ```text
    /// ensures { IsTrue result ↔ (room self.now ≡ 0) }
    /// ```
    fn is_full(&self) -> bool;
}

///
/// # Proved
///
/// ```text
/// ghost room = { λ tags. 3 - array_vec_len tags }
/// ```
impl SmallVecExt for ThreeTags {
    fn left(&self) -> usize {
        MAX_TAGS - self.len()
    }

    fn is_full(&self) -> bool {
        self.left() == 0
    }
}

/// Languages whose tags depend on more than one subtag.
///
/// # Proved
///
/// ```text
/// ghost cases: { Self → List ℕ → Option (List ℕ) }
/// ```
pub trait ComplexLanguages {
    /// The tags of a language's prefix that is a complex case, which may have no tags; `None` where the
    /// prefix is no such case, and a table decides.
    ///
    /// A prefix is what stands before the first singleton subtag (`zh-hant` of `zh-hant-u-co`), with its
    /// ASCII letters made small.
    ///
    /// # Proved
    ///
    /// ```text
    /// ensures { option_map (λ tags. map (λ tag. tag.0) tags.items) result
    ///     ≡ cases self.now prefix.now }
    /// ```
    fn tags(&self, prefix: &str) -> Option<ThreeTags>;
}

/// No language is a complex case.
#[derive(Clone, Copy, Debug, Default)]
pub struct NoComplexLanguages;

///
/// # Proved
///
/// ```text
/// ghost cases = { λ none prefix. None }
/// ```
impl ComplexLanguages for NoComplexLanguages {
    fn tags(&self, _prefix: &str) -> Option<ThreeTags> {
        None
    }
}

/// The OpenType tags of a script and of a language, the best first, as HarfBuzz finds them: first the
/// tags of the script, then those of the language. Every text of a language has tags or none; there is
/// no error.
///
/// The tags of a script are its new tag with `3` as the last byte, its new tag and its old one (`bng3`,
/// `bng2`, `beng`); most scripts have their old tag alone, the ISO 15924 code with a small first
/// letter.
///
/// Of the language, a singleton is a byte with `-` on both sides. From the first singleton `x` on, or
/// all of it where it begins with `x-`, it is for private use. Its prefix is what stands before the `-`
/// of the first singleton, or all of it where there is none; a singleton whose `-` is the first byte
/// does not count. But a language that begins with `x-` has no prefix, and the prefix of one that
/// begins with `-x-` is `-`. Then:
///
/// - Where `-hbsc` stands in what is for private use, the letters and digits right behind the first one,
///   four at most, are the only script tag, made small, if there are any. Those behind the first `-hbot`
///   are the only language tag, made capital. A tag `dflt` becomes `DFLT` there, and `DFLT` becomes `dflt`.
/// - Else the tags of the prefix are those of its case in `complex`.
/// - Where it is no such case, they are those of the rows of `table` with the prefix's first subtag as
///   their key, up to a null tag and at most three. Where the prefix has six bytes or more and
///   its second subtag is three bytes of which the first is a letter, the second takes the place of the first.
/// - Where there is no such row, a prefix of three bytes is its own tag, in capitals.
///
/// # Proved
///
/// ```text
/// ensures scripts { map (λ tag. tag.0) result.0.items
///     ≡ scripts_of script (option_copied language.entry) }
/// ensures languages { map (λ tag. tag.0) result.1.items
///     ≡ languages_of (C.cases complex.now) table.now (option_copied language.entry) }
/// ```
#[inline]
pub fn tags_from_script_and_language<C: ComplexLanguages>(
    script: Option<Script>,
    language: Option<&Language>,
    table: &LanguageTable<'_>,
    complex: &C,
) -> (ThreeTags, ThreeTags) {
    let Some(language) = language else {
        return (script_tags(script), ThreeTags::new());
    };
    let language = language.as_str();
    let private = private_use(language.as_bytes());
    let scripts = match private.and_then(|private| private_script_tag(private)) {
        Some(tag) => one_tag(tag),
        None => script_tags(script),
    };
    let languages = match private.and_then(|private| private_language_tag(private)) {
        Some(tag) => one_tag(tag),
        None => tags_from_prefix(prefix(language), table, complex),
    };
    (scripts, languages)
}

/// The tags of a script, the newest first.
fn script_tags(script: Option<Script>) -> ThreeTags {
    let mut tags = ThreeTags::new();
    let Some(script) = script else {
        return tags;
    };
    if let Some(tag) = new_tag(script) {
        // There is no third tag of Myanmar.
        if tag != Tag::from_bytes(b"mym2") {
            tags.push(third_tag(tag));
        }
        tags.push(tag);
    }
    tags.push(old_tag(script));
    tags
}

/// The tag of the second shaping specification of a script.
fn new_tag(script: Script) -> Option<Tag> {
    match script {
        script::BENGALI => Some(Tag::from_bytes(b"bng2")),
        script::DEVANAGARI => Some(Tag::from_bytes(b"dev2")),
        script::GUJARATI => Some(Tag::from_bytes(b"gjr2")),
        script::GURMUKHI => Some(Tag::from_bytes(b"gur2")),
        script::KANNADA => Some(Tag::from_bytes(b"knd2")),
        script::MALAYALAM => Some(Tag::from_bytes(b"mlm2")),
        script::ORIYA => Some(Tag::from_bytes(b"ory2")),
        script::TAMIL => Some(Tag::from_bytes(b"tml2")),
        script::TELUGU => Some(Tag::from_bytes(b"tel2")),
        script::MYANMAR => Some(Tag::from_bytes(b"mym2")),
        _ => None,
    }
}

/// The tag with `3` as its last byte.
fn third_tag(tag: Tag) -> Tag {
    let [a, b, c, _] = tag.to_bytes();
    Tag::from_bytes(&[a, b, c, b'3'])
}

/// The tag that OpenType first gave a script.
fn old_tag(script: Script) -> Tag {
    match script {
        script::HIRAGANA => Tag::from_bytes(b"kana"),
        script::LAO => Tag::from_bytes(b"lao "),
        script::YI => Tag::from_bytes(b"yi  "),
        script::NKO => Tag::from_bytes(b"nko "),
        script::VAI => Tag::from_bytes(b"vai "),
        _ => Tag(script.tag().0 | SMALL_FIRST_LETTER),
    }
}

/// A list of one tag.
fn one_tag(tag: Tag) -> ThreeTags {
    let mut tags = ThreeTags::new();
    tags.push(tag);
    tags
}

/// The script tag that a text for private use names.
fn private_script_tag(private: &[u8]) -> Option<Tag> {
    let tag = tag_behind(b"-hbsc", private)?;
    Some(swap_dflt(lowercase(tag)))
}

/// The language tag that a text for private use names.
fn private_language_tag(private: &[u8]) -> Option<Tag> {
    let tag = tag_behind(b"-hbot", private)?;
    Some(swap_dflt(tag.to_uppercase()))
}

/// The tag of the letters and digits behind the first mark, four at most.
fn tag_behind(mark: &[u8], private: &[u8]) -> Option<Tag> {
    let rest = from_first(mark, private)?;
    let word = word(&rest[mark.len()..]);
    if word.is_empty() {
        return None;
    }
    Some(Tag::from_bytes_lossy(word))
}

/// The letters and digits that stand at the front, four at most.
fn word(rest: &[u8]) -> &[u8] {
    let front = &rest[..rest.len().min(TAG_LEN)];
    &front[..word_len(front)]
}

/// How many letters and digits stand at the front.
fn word_len(front: &[u8]) -> usize {
    front
        .iter()
        .take_while(|b| b.is_ascii_alphanumeric())
        .count()
}

/// The tag with its ASCII letters made small.
fn lowercase(tag: Tag) -> Tag {
    let [a, b, c, d] = tag.to_bytes();
    Tag::from_bytes(&[
        a.to_ascii_lowercase(),
        b.to_ascii_lowercase(),
        c.to_ascii_lowercase(),
        d.to_ascii_lowercase(),
    ])
}

/// `DFLT` for `dflt` and `dflt` for `DFLT`, and any other tag as it is.
fn swap_dflt(tag: Tag) -> Tag {
    if tag == Tag::default_script() {
        Tag::default_language()
    } else if tag == Tag::default_language() {
        Tag::default_script()
    } else {
        tag
    }
}

/// The tags of a language's prefix.
fn tags_from_prefix<C: ComplexLanguages>(
    prefix: &str,
    table: &LanguageTable<'_>,
    complex: &C,
) -> ThreeTags {
    if prefix.is_empty() {
        return ThreeTags::new();
    }
    match complex.tags(prefix) {
        Some(tags) => tags,
        None => simple_tags(prefix.as_bytes(), table),
    }
}

/// The tags of a prefix that is no complex case.
fn simple_tags(prefix: &[u8], table: &LanguageTable<'_>) -> ThreeTags {
    match table.tags(key(prefix)) {
        Some(tags) => tags,
        None => own_tags(prefix),
    }
}

/// A prefix of three bytes is its own tag, in capitals.
fn own_tags(prefix: &[u8]) -> ThreeTags {
    if prefix.len() != 3 {
        return ThreeTags::new();
    }
    one_tag(Tag::from_bytes_lossy(prefix).to_uppercase())
}
