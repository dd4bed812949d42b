// Written by tools/plain_rust from crates/script_indic. Do not edit.

//! How a text of an Indic script is shaped by a font.

use crate::buffer::{hb_buffer_t, hb_glyph_info_t};
use crate::common::{Script, Tag, script};
use crate::memory::AllocError;
use crate::ot_map::Pause;
use crate::script_indic::configuration::IndicConfiguration;
use crate::script_indic::final_order::order_finally;
use crate::script_indic::machine::indic_machine;
use crate::script_indic::reordering::order_initially;
use crate::script_syllables::FontForms;
use crate::script_syllables::grammar::Grammar;
use crate::script_syllables::item::{is_ligated, is_multiplied};
use crate::script_syllables::syllables::find_syllables;

/// The kind of syllables without a base.
pub(crate) const BROKEN: u8 = 4;

/// The masks of the features that not every glyph has.
#[derive(Clone, Copy, PartialEq, Eq, Debug, Default)]
pub struct IndicMasks {
    /// Rephs.
    pub rphf: u32,
    /// A RA that stands before its base.
    pub pref: u32,
    /// Forms below the base.
    pub blwf: u32,
    /// Forms above the base.
    pub abvf: u32,
    /// Half forms.
    pub half: u32,
    /// Forms behind the base.
    pub pstf: u32,
    /// Forms at the start of a word.
    pub init: u32,
}

/// Which forms of consonants a font has lookups for.
#[derive(Clone, Copy, PartialEq, Eq, Debug, Default)]
pub struct ConsonantForms {
    /// Those of a RA that stands before its base.
    pub pref: bool,
    /// Those below the base.
    pub blwf: bool,
    /// Those behind the base.
    pub pstf: bool,
    /// Those with a RA below them.
    pub vatu: bool,
}

/// How a text of an Indic script is shaped by a font.
#[derive(Clone, Copy, PartialEq, Eq, Debug)]
pub struct IndicPlan {
    /// The script of the text.
    pub script: Option<Script>,
    /// What differs from script to script.
    pub configuration: IndicConfiguration,
    /// Whether the font was made by the old specification.
    pub is_old_spec: bool,
    /// The masks.
    pub masks: IndicMasks,
    /// The forms of consonants, of which the font is asked only where it has them.
    pub forms: ConsonantForms,
}

impl IndicPlan {
    /// The plan for a script and a font, of which `gsub_script` is the tag by which its table `GSUB` has
    /// the script.
    ///
    /// # Proved
    ///
    /// ```text
    /// ensures { result ≡ scripts.indic_plan script gsub_script.0 masks forms }
    /// ```
    #[inline]
    pub fn new(
        script: Option<Script>,
        gsub_script: Tag,
        masks: IndicMasks,
        forms: ConsonantForms,
    ) -> IndicPlan {
        let configuration = IndicConfiguration::of(script);
        IndicPlan {
            script,
            configuration,
            is_old_spec: configuration.has_old_spec && gsub_script.to_bytes()[3] != b'2',
            masks,
            forms,
        }
    }

    /// Whether a rule with context is not taken, where a font is asked for its forms.
    ///
    /// # Proved
    ///
    /// ```text
    /// ensures { result ≡ scripts.wants_no_context self.now }
    /// ```
    #[inline]
    pub fn wants_no_context(&self) -> bool {
        !self.is_old_spec && !self.is(script::MALAYALAM)
    }

    /// Whether the text is of a script.
    pub(crate) fn is(&self, script: Script) -> bool {
        match self.script {
            Some(own) => own.tag().0 == script.tag().0,
            None => false,
        }
    }

    /// What is done at a pause of a text of an Indic script.
    ///
    /// # Requires
    ///
    /// - `buffer.old.have_output ≡ false`
    ///
    /// # Errors
    ///
    /// `Ok(false)` where the text would become too long. `Err(AllocError)` where memory ran out.
    ///
    /// # Proved
    ///
    /// ```text
    /// ensures { Reorders result buffer.old buffer.new }
    /// ```
    #[inline]
    pub fn pause<F: FontForms>(
        &self,
        pause: Pause,

        buffer: &mut hb_buffer_t,
        font: &mut F,
    ) -> Result<bool, AllocError> {
        debug_assert!(!buffer.have_output());
        match pause {
            Pause::SetUpSyllables => {
                self.setup_syllables(buffer);
                Ok(true)
            }
            Pause::InitialReordering => order_initially(buffer, self, font),
            Pause::FinalReordering => {
                self.final_reordering(buffer, font);
                Ok(true)
            }
            _ => Ok(true),
        }
    }

    /// Finds the syllables, before the first lookups.
    ///
    /// # Requires
    ///
    /// - `buffer.old.have_output ≡ false`
    fn setup_syllables(&self, buffer: &mut hb_buffer_t) {
        debug_assert!(!buffer.have_output());
        let grammar = Grammar {
            machine: indic_machine(),
            broken: BROKEN,
            passes_over: false,
        };
        find_syllables(buffer, &grammar);
    }

    /// Puts the glyphs of each syllable in the order in which they are seen, after the basic features.
    ///
    /// # Requires
    ///
    /// - `buffer.old.have_output ≡ false`
    fn final_reordering<F: FontForms>(&self, buffer: &mut hb_buffer_t, font: &F) {
        debug_assert!(!buffer.have_output());
        let virama = if has_parted_ligature(buffer.info()) {
            self.virama_glyph(font)
        } else {
            None
        };
        order_finally(buffer, self, virama);
    }

    /// The glyph of the halant; `None` where the font has none.
    pub(crate) fn virama_glyph<F: FontForms>(&self, font: &F) -> Option<u32> {
        let glyph = font.glyph_of(self.configuration.virama? as u32)?;
        if glyph == 0 { None } else { Some(glyph) }
    }
}

/// Whether a glyph came of a ligature that was taken apart.
fn has_parted_ligature(infos: &[hb_glyph_info_t]) -> bool {
    infos
        .iter()
        .any(|info| is_ligated(info) && is_multiplied(info))
}
