// Written by tools/plain_rust from crates/shaping_verification. Do not edit.

//! A text as it was before it was shaped, of which parts are shaped again.

use crate::buffer::{
    BufferFlags, HB_BUFFER_CLUSTER_LEVEL_MONOTONE_CHARACTERS,
    HB_BUFFER_CLUSTER_LEVEL_MONOTONE_GRAPHEMES, Language, LanguageError, UnicodeBuffer,
    hb_buffer_t, hb_glyph_info_t,
};
use crate::common::{Direction, GlyphId, Script};
use crate::memory::{AllocError, String, Vec};
use crate::verification::shape_error::ShapeError;

/// How many characters before a text and after it a shaper may look at.
const CONTEXT_LENGTH: usize = 5;

/// A text before it is shaped: its characters with their clusters, and what was said of it.
#[derive(Debug)]
pub struct Original {
    /// The characters.
    pub characters: Vec<hb_glyph_info_t>,
    /// How the text is to be treated.
    pub flags: BufferFlags,
    /// The way in which the line runs.
    pub direction: Direction,
    before: String,
    after: String,
    script: Option<Script>,
    language: Option<Language>,
    cluster_level: u32,
    invisible: Option<GlyphId>,
    not_found_variation_selector: Option<u32>,
}

impl Original {
    /// The text of a buffer.
    ///
    /// # Errors
    ///
    /// `Err(AllocError)` where memory ran out.
    ///
    /// # Proved
    ///
    /// That it returns.
    pub fn of(buffer: &hb_buffer_t) -> Result<Self, AllocError> {
        let mut before = String::new();
        for character in buffer.context(0).iter().rev() {
            before.push(*character)?;
        }
        let mut after = String::new();
        for character in buffer.context(1) {
            after.push(*character)?;
        }
        let mut characters = Vec::new();
        characters.extend_from_slice(buffer.info())?;
        Ok(Original {
            characters,
            flags: buffer.flags,
            direction: buffer.direction,
            before,
            after,
            script: buffer.script,
            language: same_language(buffer.language.as_ref())?,
            cluster_level: buffer.cluster_level,
            invisible: buffer.invisible,
            not_found_variation_selector: buffer.not_found_variation_selector,
        })
    }

    /// Whether clusters are kept in order at the text's cluster level.
    pub(crate) fn has_monotone_level(&self) -> bool {
        self.cluster_level == HB_BUFFER_CLUSTER_LEVEL_MONOTONE_GRAPHEMES
            || self.cluster_level == HB_BUFFER_CLUSTER_LEVEL_MONOTONE_CHARACTERS
    }

    /// An empty text, before which stands what comes before a place of this one.
    pub(crate) fn begin(&self, place: usize) -> Result<UnicodeBuffer, AllocError> {
        let mut before = String::new();
        before.push_str(self.before.as_str())?;
        let near = self.part(place.saturating_sub(CONTEXT_LENGTH), place);
        push_characters(&mut before, near)?;
        let mut text = UnicodeBuffer::new();
        text.set_pre_context(before.as_str());
        Ok(text)
    }

    /// Adds the characters from a place up to another one to a text.
    pub(crate) fn add(
        &self,
        text: &mut UnicodeBuffer,
        start: usize,
        end: usize,
    ) -> Result<(), ShapeError> {
        for info in self.part(start, end) {
            if !text.add(character_of(info), info.cluster)? {
                return Err(ShapeError::TooLong);
            }
        }
        Ok(())
    }

    /// The buffer of a text that ends at a place of this one, of which the same is said.
    pub(crate) fn finish(
        &self,

        text: UnicodeBuffer,
        place: usize,
        flags: BufferFlags,
    ) -> Result<hb_buffer_t, AllocError> {
        let mut after = String::new();
        push_characters(
            &mut after,
            self.part(place, place.saturating_add(CONTEXT_LENGTH)),
        )?;
        after.push_str(self.after.as_str())?;
        let language = same_language(self.language.as_ref())?;
        let mut text = text;
        text.set_post_context(after.as_str());
        let mut buffer = text.into_buffer();
        buffer.flags = flags;
        buffer.cluster_level = self.cluster_level;
        buffer.invisible = self.invisible;
        buffer.not_found_variation_selector = self.not_found_variation_selector;
        buffer.direction = self.direction;
        buffer.script = self.script;
        buffer.language = language;
        Ok(buffer)
    }

    /// The characters from a place up to another one, or up to the end.
    fn part(&self, start: usize, end: usize) -> &[hb_glyph_info_t] {
        let characters = self.characters.as_slice();
        characters
            .get(start..end.min(characters.len()))
            .unwrap_or(&[])
    }
}

/// The character of an item.
fn character_of(info: &hb_glyph_info_t) -> char {
    char::from_u32(info.glyph_id).unwrap_or(char::REPLACEMENT_CHARACTER)
}

/// Adds characters to a text.
fn push_characters(text: &mut String, infos: &[hb_glyph_info_t]) -> Result<(), AllocError> {
    for info in infos {
        text.push(character_of(info))?;
    }
    Ok(())
}

/// The language once more.
fn same_language(language: Option<&Language>) -> Result<Option<Language>, AllocError> {
    let Some(language) = language else {
        return Ok(None);
    };
    match Language::from_str(language.as_str()) {
        Ok(language) => Ok(Some(language)),
        Err(LanguageError::Invalid) => Ok(None),
        Err(LanguageError::Memory) => Err(AllocError),
    }
}
