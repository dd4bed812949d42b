// Written by tools/plain_rust from crates/fault_tests. Do not edit.

//! Languages, and the OpenType tags of a script and a language.

use crate::fault_tests::beginning::begun_text;
use crate::fault_tests::scenario::{Lost, Scenario};
use vukhaso::internals::buffer::UnicodeBuffer;
use vukhaso::internals::text::{
    Language, LanguageTable, NoComplexLanguages, Tag, ThreeTags, script,
    tags_from_script_and_language,
};

/// A language is made of its text.
pub struct Made;

impl Scenario for Made {
    type Ready = ();

    fn name(&self) -> &str {
        "Language::from_str"
    }

    fn least(&self) -> u32 {
        1
    }

    fn prepare(&self) -> Result<(), Lost> {
        Ok(())
    }

    fn watch(&self, _ready: ()) -> Result<(), Lost> {
        let language = match Language::from_str("Ml-IN") {
            Ok(language) => language,
            Err(_) => Language::from_str("Ml-IN")?,
        };
        if language.as_str() != "ml-in" {
            return Err(Lost::State);
        }
        Ok(())
    }
}

/// A text is given its language.
pub struct Told;

impl Scenario for Told {
    type Ready = (UnicodeBuffer, Language);

    fn name(&self) -> &str {
        "set_language"
    }

    fn least(&self) -> u32 {
        0
    }

    fn prepare(&self) -> Result<(UnicodeBuffer, Language), Lost> {
        Ok((begun_text()?, Language::from_str("ml")?))
    }

    fn watch(&self, ready: (UnicodeBuffer, Language)) -> Result<(), Lost> {
        let (mut text, language) = ready;
        text.set_language(language);
        match text.language() {
            Some(language) if language.as_str() == "ml" => Ok(()),
            _ => Err(Lost::State),
        }
    }
}

/// The tags of a script and a language.
pub struct Tags;

impl Scenario for Tags {
    type Ready = Language;

    fn name(&self) -> &str {
        "tags_from_script_and_language"
    }

    fn least(&self) -> u32 {
        0
    }

    fn prepare(&self) -> Result<Language, Lost> {
        Ok(Language::from_str("ml")?)
    }

    fn watch(&self, ready: Language) -> Result<(), Lost> {
        let Some((scripts, languages)) = tags_of(&ready) else {
            return Err(Lost::Refusal);
        };
        if are_tags(&scripts, &["mlm3", "mlm2", "mlym"]) && are_tags(&languages, &["MAL "]) {
            return Ok(());
        }
        Err(Lost::State)
    }
}

/// The tags of Malayalam's script and of a language.
fn tags_of(language: &Language) -> Option<(ThreeTags, ThreeTags)> {
    let rows = [("ml", Tag::from_bytes(b"MAL "))];
    let table = LanguageTable::new(&rows)?;
    Some(tags_from_script_and_language(
        Some(script::MALAYALAM),
        Some(language),
        &table,
        &NoComplexLanguages,
    ))
}

/// Whether these are the tags of these letters.
fn are_tags(tags: &ThreeTags, wanted: &[&str]) -> bool {
    tags.len() == wanted.len()
        && tags
            .iter()
            .zip(wanted)
            .all(|(tag, letters)| *tag == Tag::from_bytes_lossy(letters.as_bytes()))
}
