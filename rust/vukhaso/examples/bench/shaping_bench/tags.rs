// Written by tools/plain_rust from crates/shaping_bench. Do not edit.

//! Scripts and languages whose OpenType tags are asked for.

use crate::anyhow::anyhow;
use crate::shaping_bench::measuring::Item;
use std::str::FromStr;
use vukhaso::internals::text::language_table::LanguageTable;
use vukhaso::internals::text::tags::{
    NoComplexLanguages, ThreeTags, tags_from_script_and_language,
};
use vukhaso::internals::text::{Language, Script, Tag, TagExt};
use vukhaso::memory::{AllocError, String, Vec};

/// A script and a language, where there are such.
pub type Pair = (Option<Script>, Option<Language>);

/// The pairs that are asked for in turn.
const PAIRS: [(&str, &str); 10] = [
    ("Latn", "en"),
    ("Beng", "bn-in"),
    ("Mlym", "ml"),
    ("Arab", "ar-ary"),
    ("Hira", "zzz"),
    ("Deva", "hi-x-hbotabcd"),
    ("Cyrl", "x-hbscdflt-hbotsrb"),
    ("Mymr", "my-a-foo-x-hbscmym2"),
    ("Hans", "zh-cn-u-co"),
    ("Grek", ""),
];

/// The pairs as scripts and languages.
///
/// # Errors
///
/// `Err(AllocError)` where memory ran out.
///
/// # Proved
///
/// That it returns.
#[inline]
pub fn pairs() -> Result<Vec<Pair>, AllocError> {
    let mut pairs = Vec::new();
    for (script, language) in PAIRS {
        let script = Script::from_str(script).ok();
        pairs.push((script, Language::from_str(language).ok()))?;
    }
    Ok(pairs)
}

/// The keys of a long table in their order: `aa` to `zz`, and of the keys of three letters those that
/// begin with `a` and do not end with `z`, those that begin with `m` and end with `r` or `y`, and those
/// with `a` in the middle and `q` at the end.
///
/// # Errors
///
/// `Err(AllocError)` where memory ran out.
///
/// # Proved
///
/// That it returns.
#[inline]
pub fn long_keys() -> Result<Vec<String>, AllocError> {
    let mut keys = Vec::new();
    for first in 'a'..='z' {
        push_keys_of(&mut keys, first)?;
    }
    Ok(keys)
}

fn push_keys_of(keys: &mut Vec<String>, first: char) -> Result<(), AllocError> {
    for second in 'a'..='z' {
        keys.push(String::format(format_args!("{first}{second}"))?)?;
        push_long_keys_of(keys, first, second)?;
    }
    Ok(())
}

fn push_long_keys_of(keys: &mut Vec<String>, first: char, second: char) -> Result<(), AllocError> {
    for third in 'a'..='z' {
        if is_long_key(first, second, third) {
            keys.push(String::format(format_args!("{first}{second}{third}"))?)?;
        }
    }
    Ok(())
}

fn is_long_key(first: char, second: char, third: char) -> bool {
    first == 'a' && third != 'z'
        || first == 'm' && (third == 'r' || third == 'y')
        || second == 'a' && third == 'q'
}

/// A row for each key, whose tag is the key in capitals.
///
/// # Errors
///
/// `Err(AllocError)` where memory ran out.
///
/// # Proved
///
/// That it returns.
#[inline]
pub fn rows(keys: &[String]) -> Result<Vec<(&str, Tag)>, AllocError> {
    let mut rows = Vec::new();
    for key in keys {
        rows.push((
            key.as_str(),
            Tag::from_bytes_lossy(key.as_bytes()).to_uppercase(),
        ))?;
    }
    Ok(rows)
}

/// Pairs whose tags are asked for in turn.
#[derive(Debug)]
pub struct TagsItem<'a> {
    pairs: &'a [Pair],
    table: LanguageTable<'a>,
    size: usize,
}

impl<'a> TagsItem<'a> {
    /// # Proved
    ///
    /// That it returns.
    #[inline]
    pub fn new(
        pairs: &'a [Pair],
        rows: &'a [(&'a str, Tag)],
        size: usize,
    ) -> crate::anyhow::Result<Self> {
        let Some(table) = LanguageTable::new(rows) else {
            return Err(anyhow!("the rows are no table"));
        };
        Ok(TagsItem { pairs, table, size })
    }
}

impl<'a> Item for TagsItem<'a> {
    fn prepare(&mut self) -> crate::anyhow::Result<()> {
        Ok(())
    }

    fn run(&mut self) -> crate::anyhow::Result<u32> {
        Ok(ask_for_tags(self.pairs, &self.table, self.size))
    }
}

/// # Requires
///
/// For the tags of each pair in turn.
fn ask_for_tags(pairs: &[Pair], table: &LanguageTable<'_>, size: usize) -> u32 {
    let count = pairs.len().max(1);
    let mut seen = 0u32;
    for i in 0..size {
        if let Some((script, language)) = pairs.get(i % count) {
            let (scripts, languages) = tags_from_script_and_language(
                *script,
                language.as_ref(),
                table,
                &NoComplexLanguages,
            );
            seen = seen
                .wrapping_add(sum_of(&scripts))
                .wrapping_add(sum_of(&languages));
        }
    }
    seen
}

fn sum_of(tags: &ThreeTags) -> u32 {
    let mut sum = 0u32;
    for tag in tags.iter() {
        sum = sum.wrapping_add(tag.0);
    }
    sum
}
