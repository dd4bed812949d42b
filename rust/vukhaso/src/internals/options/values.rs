// Written by tools/plain_rust from crates/shape_options. Do not edit.

//! Values of options, by their texts.

use crate::buffer::BufferClusterLevel;
use crate::options::options::OptionsError;

/// Refuses a reader of the font's file, unless it is the one that there is.
pub(crate) fn refuse_loader<'a>(name: Option<&'a str>) -> Result<(), OptionsError<'a>> {
    match name {
        Some(name) if !is_open_type(name) => Err(OptionsError::FaceLoader(name)),
        _ => Ok(()),
    }
}

/// Refuses functions of a font, unless they are those that there are.
pub(crate) fn refuse_functions<'a>(name: Option<&'a str>) -> Result<(), OptionsError<'a>> {
    match name {
        Some(name) if !is_open_type(name) => Err(OptionsError::FontFuncs(name)),
        _ => Ok(()),
    }
}

/// Refuses flags of FreeType, unless they are a number.
pub(crate) fn refuse_load_flags<'a>(flags: Option<&'a str>) -> Result<(), OptionsError<'a>> {
    match flags {
        Some(flags) => match flags.parse::<i32>() {
            Ok(_) => Ok(()),
            Err(_) => Err(OptionsError::Number("ft-load-flags", flags)),
        },
        None => Ok(()),
    }
}

/// Whether a reader or functions of a font are those that there are.
fn is_open_type(name: &str) -> bool {
    name.eq_ignore_ascii_case("ot")
}

/// How far clusters are merged.
pub(crate) fn level_of<'a>(text: Option<&'a str>) -> Result<BufferClusterLevel, OptionsError<'a>> {
    match text {
        Some(text) => match text.parse::<i32>() {
            Ok(number) => Ok(level_numbered(number)),
            Err(_) => Err(OptionsError::Number("cluster-level", text)),
        },
        None => Ok(BufferClusterLevel::MonotoneGraphemes),
    }
}

/// The level of a number. A number that is none of a level does not merge graphemes, as in HarfBuzz, so
/// it is taken for level 1.
fn level_numbered(number: i32) -> BufferClusterLevel {
    match number {
        0 => BufferClusterLevel::MonotoneGraphemes,
        2 => BufferClusterLevel::Characters,
        3 => BufferClusterLevel::Graphemes,
        _ => BufferClusterLevel::MonotoneCharacters,
    }
}
