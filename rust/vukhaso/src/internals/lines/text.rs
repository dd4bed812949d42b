// Written by tools/plain_rust from crates/shape_lines. Do not edit.

//! The text that a line is shaped as.

use crate::buffer::{GlyphBuffer, Language, LanguageError, UnicodeBuffer};
use crate::lines::errors::CommandError;
use crate::memory::{AllocError, String};
use crate::options::options::{LineOptions, OptionsError, TextSource};
use crate::options::words::WordsError;

/// The text that is given, and not in a file.
///
/// # Errors
///
/// `Err`: the clauses below say when.
///
/// # Proved
///
/// That it returns.
#[inline]
pub fn given_text<'a, 't>(text: &'t TextSource<'a>) -> Result<&'t str, CommandError<'a>> {
    match text {
        TextSource::Given(text) => Ok(text),
        TextSource::CodePoints(text) => Ok(text.as_str()),
        TextSource::File(_) | TextSource::Input => Err(CommandError::Words(WordsError::Options(
            OptionsError::DrawnFile,
        ))),
    }
}

/// The bytes as a text, in which each byte that is no part of a character in UTF-8 is a replacement
/// character, as in HarfBuzz. Of bytes that are UTF-8 it is the text.
///
/// # Errors
///
/// `Err(AllocError)` where memory ran out.
///
/// # Proved
///
/// ```text
/// ensures { IfOk result (λ text. IsUtf8 bytes.now → string_bytes text ≡ bytes.now) }
/// ```
#[inline]
pub fn lossy_text(bytes: &[u8]) -> Result<String, AllocError> {
    if let Ok(whole) = std::str::from_utf8(bytes) {
        return String::from_str(whole);
    }
    let mut text = String::new();
    let mut rest = bytes;
    while !rest.is_empty() {
        rest = push_lossy(&mut text, rest)?;
    }
    Ok(text)
}

/// Adds the characters before the first byte that is no part of one, and a replacement character for
/// that byte. It gives the bytes that are left.
///
/// # Requires
///
/// - `0 < length bytes.now`
fn push_lossy<'a>(text: &mut String, bytes: &'a [u8]) -> Result<&'a [u8], AllocError> {
    debug_assert!(!bytes.is_empty());
    let valid_len = match std::str::from_utf8(bytes) {
        Ok(whole) => {
            text.push_str(whole)?;
            return Ok(&[]);
        }
        Err(error) => error.valid_up_to(),
    };
    let (valid, others) = bytes.split_at(valid_len);
    text.push_str(std::str::from_utf8(valid).unwrap_or(""))?;
    text.push(char::REPLACEMENT_CHARACTER)?;
    Ok(&others[1..])
}

/// An empty text, in which characters that are invisible by default are to have the glyph of the
/// options.
///
/// # Proved
///
/// ```text
/// ensures { result.invisible ≡ options.now.invisible_glyph }
/// ```
#[inline]
pub fn empty_text(options: &LineOptions<'_>) -> UnicodeBuffer {
    emptied(UnicodeBuffer::new(), options)
}

/// A text that is emptied, with the room of its buffer, for which the options say the same.
///
/// # Proved
///
/// ```text
/// ensures { result ≡ cleared (record text { invisible = options.now.invisible_glyph }) }
/// ```
#[inline]
pub fn emptied(text: UnicodeBuffer, options: &LineOptions<'_>) -> UnicodeBuffer {
    let mut buffer = text.into_buffer();
    buffer.invisible = options.invisible_glyph;
    buffer.clear_positions();
    GlyphBuffer::from_buffer(buffer).clear()
}

/// Makes a line the whole text of a buffer, with the contexts and the properties of the options.
///
/// # Errors
///
/// `Ok(false)` where the line is longer than a buffer holds: then the text is empty. `Err(AllocError)`
/// where memory ran out.
///
/// # Proved
///
/// ```text
/// ensures { IfOk result (λ fits. (given : State)
///     × GrowthMeets (pushed line.now (cleared text.old)) (cleared text.old) (Ok fits) given
///     × (text.new ≡ prepared options.now given)) }
/// ```
#[inline]
pub fn fill(
    options: &LineOptions<'_>,
    line: &str,
    text: &mut UnicodeBuffer,
) -> Result<bool, AllocError> {
    text.clear();
    let fits = text.push_str(line)?;
    prepare(options, text)?;
    Ok(fits)
}

/// Gives a text that was pushed its clusters, its contexts and its properties.
fn prepare(options: &LineOptions<'_>, text: &mut UnicodeBuffer) -> Result<(), AllocError> {
    if !options.utf8_clusters {
        text.reset_clusters();
    }
    text.set_pre_context(options.before.as_str());
    text.set_post_context(options.after.as_str());
    set_properties(options, text)?;
    text.guess_segment_properties();
    Ok(())
}

/// Says what the options say.
fn set_properties(options: &LineOptions<'_>, text: &mut UnicodeBuffer) -> Result<(), AllocError> {
    text.set_direction(options.direction);
    if let Some(script) = options.script {
        text.set_script(script);
    }
    set_language(options.language, text)?;
    text.set_flags(options.flags);
    text.set_cluster_level(options.cluster_level);
    if let Some(glyph) = options.not_found_variation_selector_glyph {
        text.set_not_found_variation_selector_glyph(glyph);
    }
    Ok(())
}

/// Says the language, unless the text is empty.
fn set_language(language: &str, text: &mut UnicodeBuffer) -> Result<(), AllocError> {
    match Language::from_str(language) {
        Ok(language) => {
            text.set_language(language);
            Ok(())
        }
        Err(LanguageError::Invalid) => Ok(()),
        Err(LanguageError::Memory) => Err(AllocError),
    }
}
