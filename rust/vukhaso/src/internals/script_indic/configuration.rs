// Written by tools/plain_rust from crates/script_indic. Do not edit.

//! What differs from script to script.

use crate::common::{Script, script};

/// Where a reph goes.
#[derive(Clone, Copy, PartialEq, Eq, Debug)]
pub enum RephPosition {
    /// Behind the base.
    AfterMain,
    /// Before the forms below the base.
    BeforeSub,
    /// Behind the forms below the base.
    AfterSub,
    /// Before the forms behind the base.
    BeforePost,
    /// Behind the forms behind the base.
    AfterPost,
}

/// What makes a reph.
#[derive(Clone, Copy, PartialEq, Eq, Debug)]
pub enum RephMode {
    /// RA and a halant at the start of a syllable.
    Implicit,
    /// RA, a halant and a joiner.
    Explicit,
    /// A character of its own.
    Encoded,
}

/// What differs from script to script.
#[derive(Clone, Copy, PartialEq, Eq, Debug)]
pub struct IndicConfiguration {
    /// Whether the script has an OpenType tag of the old specification beside the new one.
    pub has_old_spec: bool,
    /// The halant; `None` where it is not known.
    pub virama: Option<char>,
    /// Where a reph goes.
    pub reph_position: RephPosition,
    /// What makes a reph.
    pub reph_mode: RephMode,
    /// Whether consonants before the base have forms below it too, and not only those behind it.
    pub has_below_forms_before_base: bool,
}

impl IndicConfiguration {
    /// The configuration of a script.
    ///
    /// # Proved
    ///
    /// ```text
    /// ensures { result ≡ scripts.configuration script }
    /// ```
    pub fn of(script: Option<Script>) -> IndicConfiguration {
        let Some(script) = script else {
            return default_configuration();
        };
        match script {
            script::DEVANAGARI => implicit('\u{94D}', RephPosition::BeforePost),
            script::BENGALI => implicit('\u{9CD}', RephPosition::AfterSub),
            script::GURMUKHI => implicit('\u{A4D}', RephPosition::BeforeSub),
            script::GUJARATI => implicit('\u{ACD}', RephPosition::BeforePost),
            script::ORIYA => implicit('\u{B4D}', RephPosition::AfterMain),
            script::TAMIL => implicit('\u{BCD}', RephPosition::AfterPost),
            script::TELUGU => IndicConfiguration {
                reph_mode: RephMode::Explicit,
                has_below_forms_before_base: false,
                ..implicit('\u{C4D}', RephPosition::AfterPost)
            },
            script::KANNADA => IndicConfiguration {
                has_below_forms_before_base: false,
                ..implicit('\u{CCD}', RephPosition::AfterPost)
            },
            script::MALAYALAM => IndicConfiguration {
                reph_mode: RephMode::Encoded,
                ..implicit('\u{D4D}', RephPosition::AfterMain)
            },
            _ => default_configuration(),
        }
    }
}

/// The configuration of a script of which RA and a halant make a reph.
fn implicit(virama: char, reph_position: RephPosition) -> IndicConfiguration {
    IndicConfiguration {
        has_old_spec: true,
        virama: Some(virama),
        reph_position,
        reph_mode: RephMode::Implicit,
        has_below_forms_before_base: true,
    }
}

/// The configuration of any other script.
fn default_configuration() -> IndicConfiguration {
    IndicConfiguration {
        has_old_spec: false,
        virama: None,
        reph_position: RephPosition::BeforePost,
        reph_mode: RephMode::Implicit,
        has_below_forms_before_base: true,
    }
}
