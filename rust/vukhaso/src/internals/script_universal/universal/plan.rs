// Written by tools/plain_rust from crates/script_universal. Do not edit.

//! How a text of the universal shaper is shaped by a font.

use crate::buffer::hb_buffer_t;
use crate::memory::AllocError;
use crate::ot_map::Pause;
use crate::script_syllables::dotted_circle::CircleKind;
use crate::script_syllables::grammar::Grammar;
use crate::script_syllables::reordering::reorder;
use crate::script_syllables::syllables::find_syllables;
use crate::script_syllables::{FontForms, Position};
use crate::script_universal::universal::item::mark_passed_over;
use crate::script_universal::universal::machine::universal_machine;
use crate::script_universal::universal::masks::{mask_forms, mask_rephs};
use crate::script_universal::universal::recorded::{Recorded, forget_substitutions, record_made};
use crate::universal_categories::UniversalCategory;

/// The kind of syllables without a base.
pub(crate) const BROKEN: u8 = 7;

const CIRCLE: CircleKind = CircleKind {
    category: UniversalCategory::Base as u8,
    position: Position::Start,
    repha: Some(UniversalCategory::Repha as u8),
    broken: BROKEN,
};

/// What `pref` makes of glyphs: vowel signs in front.
const RECORDED_PREF: Recorded = Recorded {
    mask: None,
    category: UniversalCategory::VowelPre,
};

/// How a text of the universal shaper is shaped by a font.
#[derive(Clone, Copy, PartialEq, Eq, Debug, Default)]
pub struct UniversalPlan {
    /// The mask of rephs.
    pub rphf: u32,
    /// The masks of a syllable that stands alone, of the first of a word, of one within it and of the last; 0 where the font does not
    /// have the feature, and all 0 where letters join by themselves.
    pub forms: FormMasks,
}

/// The masks of syllables by where they stand in a word.
#[derive(Clone, Copy, PartialEq, Eq, Debug, Default)]
pub struct FormMasks {
    /// Alone.
    pub isol: u32,
    /// The first.
    pub init: u32,
    /// Within the word.
    pub medi: u32,
    /// The last.
    pub fina: u32,
}

impl FormMasks {
    /// Those of all forms.
    ///
    /// # Proved
    ///
    /// ```text
    /// ensures { result ≡ all_forms self.now }
    /// ```
    #[inline]
    pub fn all(&self) -> u32 {
        self.isol | self.init | self.medi | self.fina
    }
}

impl UniversalPlan {
    /// What is done at a pause.
    ///
    /// # Requires
    ///
    /// - `buffer.old.have_output ≡ false`
    ///
    /// # Errors
    ///
    /// `Ok(false)` where the text would become too long. `Err(AllocError)` where memory ran out.
    ///
    /// # Proved
    ///
    /// ```text
    /// ensures { Reorders result buffer.old buffer.new }
    /// ```
    #[inline]
    pub fn pause<F: FontForms>(
        &self,
        pause: Pause,
        buffer: &mut hb_buffer_t,
        font: &F,
    ) -> Result<bool, AllocError> {
        debug_assert!(!buffer.have_output());
        match pause {
            Pause::SetUpSyllables => self.setup_syllables(buffer),
            Pause::ClearSubstitutionFlags => forget_substitutions(buffer),
            Pause::RecordRphf => record_made(buffer, self.recorded_reph()),
            Pause::RecordPref => record_made(buffer, RECORDED_PREF),
            Pause::InitialReordering => return reorder(buffer, font, CIRCLE, self),
            Pause::FinalReordering | Pause::Nothing | Pause::RecordStch | Pause::ArabicFallback => {
            }
        }
        Ok(true)
    }

    /// What `rphf` makes of glyphs with its mask at the start of a syllable.
    fn recorded_reph(&self) -> Recorded {
        Recorded {
            mask: Some(self.rphf),
            category: UniversalCategory::Repha,
        }
    }

    /// Finds the syllables, before the first lookups.
    ///
    /// # Requires
    ///
    /// - `buffer.old.have_output ≡ false`
    fn setup_syllables(&self, buffer: &mut hb_buffer_t) {
        debug_assert!(!buffer.have_output());
        let grammar = Grammar {
            machine: universal_machine(),
            broken: BROKEN,
            passes_over: true,
        };
        mark_passed_over(buffer);
        find_syllables(buffer, &grammar);
        mask_rephs(buffer, self.rphf);
        mask_forms(buffer, &self.forms);
    }
}
