// Written by tools/plain_rust from crates/script_indic. Do not edit.

//! The scripts that the Indic shaper serves (OpenType specification, "Script tags").

use crate::common::{Script, script};

/// Whether a script is one of the nine that OpenType has the Indic shaper for.
///
/// # Proved
///
/// ```text
/// ensures { result ≡ is_listed indic_scripts script }
/// ```
#[inline]
pub fn is_indic(script: Script) -> bool {
    matches!(
        script,
        script::BENGALI
            | script::DEVANAGARI
            | script::GUJARATI
            | script::GURMUKHI
            | script::KANNADA
            | script::MALAYALAM
            | script::ORIYA
            | script::TAMIL
            | script::TELUGU
    )
}
