// Written by tools/plain_rust from crates/script_shapers. Do not edit.

//! The shapers of scripts, and what each does at the steps of shaping: HarfBuzz's `hb_ot_shaper_t`.

use crate::buffer::hb_buffer_t;
use crate::common::{Direction, Script, Tag, script};
use crate::memory::AllocError;
use crate::script_indic::scripts::is_indic;
use crate::script_items::FontGlyphs;
use crate::script_items::masks::add_masks;
use crate::script_joining::arabic;
use crate::script_joining::arabic::stretching::{record_pieces, stretch};
use crate::script_letters::hangul::prepare;
use crate::script_letters::hebrew;
use crate::script_letters::thai::{shape_private_use, split_all};
use crate::script_shapers::plan::ScriptPlan;
use crate::script_syllables::part_vowels;
use crate::script_universal::khmer;
use crate::script_universal::universal::scripts::{is_universal, joins};

/// The shaper of a script.
#[derive(Clone, Copy, PartialEq, Eq, Debug)]
pub enum ScriptShaper {
    /// That of scripts which need no more than their lookups.
    Default,
    /// That of Arabic and Syriac.
    Arabic,
    /// That of Hebrew.
    Hebrew,
    /// That of Hangul.
    Hangul,
    /// That of Thai and Lao.
    Thai,
    /// That of Devanagari, Bengali, Gurmukhi, Gujarati, Oriya, Tamil, Telugu, Kannada and Malayalam.
    Indic,
    /// That of Khmer.
    Khmer,
    /// That of Myanmar.
    Myanmar,
    /// That of scripts in syllables which have no other.
    Universal,
    /// The same, of scripts whose letters join.
    UniversalJoining,
    /// That of Burmese in the encoding Zawgyi, of which fonts do all.
    Zawgyi,
    /// That of fonts whose table `morx` does what the shaper of the script would do: HarfBuzz's plainest one, which is the default
    /// one but for marks, which keep their width and are placed by nothing else.
    Plain,
}

use ScriptShaper::*;

/// Whether characters are taken apart and composed: HarfBuzz's `hb_ot_shape_normalization_mode_t`.
#[derive(Clone, Copy, PartialEq, Eq, Debug)]
pub enum NormalizationMode {
    /// Only characters that the font has no glyph for are taken apart.
    Nothing,
    /// Marks are composed where the font does not place them, or has the composed characters.
    Auto,
    /// Every character is taken apart as far as the font has its parts, and then marks are composed where the font has the composed
    /// characters.
    Decomposed,
}

/// When marks lose their width: HarfBuzz's `hb_ot_shape_zero_width_marks_type_t`.
#[derive(Clone, Copy, PartialEq, Eq, Debug)]
pub enum ZeroWidthMarks {
    /// They keep it.
    Never,
    /// Before the lookups of `GPOS`.
    Early,
    /// After the lookups of `GPOS`.
    Late,
}

impl ScriptShaper {
    /// The shaper of a text in a script and a direction, where `gsub_script` is the tag by which its script
    /// was found in the font's table `GSUB`, the null tag where it was not.
    ///
    /// # Proved
    ///
    /// ```text
    /// ensures { result ≡ unwrap_or (option_map (λ tag. shaper_of tag direction gsub_script.0) script) Default }
    /// ```
    #[inline]
    pub fn of(script: Option<Script>, direction: Direction, gsub_script: Tag) -> ScriptShaper {
        match script {
            Some(script) if is_arabic(script, direction, gsub_script) => Arabic,
            Some(script) => shaper_of(script, gsub_script),
            None => Default,
        }
    }

    /// The shaper in its place where Apple's table `morx` substitutes glyphs: the plain one, unless it is
    /// the default one.
    ///
    /// # Proved
    ///
    /// ```text
    /// ensures { result ≡ (if substitutes_by_morx then shaper_with_morx self else self) }
    /// ```
    #[inline]
    pub fn with_morx(self, substitutes_by_morx: bool) -> ScriptShaper {
        if substitutes_by_morx && self != Default {
            Plain
        } else {
            self
        }
    }

    /// The script that the font's table `GPOS` has to have, for its lookups to be applied; `None` where any
    /// will do.
    ///
    /// # Proved
    ///
    /// ```text
    /// ensures { option_map (λ tag. tag.0) result ≡ wanted_script self }
    /// ```
    #[inline]
    pub fn gpos_script(self) -> Option<Tag> {
        match self {
            Hebrew => Some(Tag::from_bytes(b"hebr")),
            _ => None,
        }
    }

    /// Whether characters are taken apart and composed.
    ///
    /// # Proved
    ///
    /// ```text
    /// ensures { result ≡ mode_of self }
    /// ```
    #[inline]
    pub fn normalization_mode(self) -> NormalizationMode {
        match self {
            Hangul | Zawgyi => NormalizationMode::Nothing,
            Default | Arabic | Hebrew | Thai | Plain => NormalizationMode::Auto,
            _ => NormalizationMode::Decomposed,
        }
    }

    /// When marks lose their width.
    ///
    /// # Proved
    ///
    /// ```text
    /// ensures { result ≡ width_of self }
    /// ```
    #[inline]
    pub fn zero_width_marks(self) -> ZeroWidthMarks {
        match self {
            Hangul | Indic | Khmer | Zawgyi | Plain => ZeroWidthMarks::Never,
            Myanmar | Universal | UniversalJoining => ZeroWidthMarks::Early,
            Default | Arabic | Hebrew | Thai => ZeroWidthMarks::Late,
        }
    }

    /// Whether marks are placed by the bounds of glyphs where the font does not place them.
    ///
    /// # Proved
    ///
    /// ```text
    /// ensures { result ≡ has_fallback self }
    /// ```
    #[inline]
    pub fn fallback_position(self) -> bool {
        match self {
            Default | Arabic | Hebrew => true,
            _ => false,
        }
    }

    /// What a character and the next one compose to.
    ///
    /// # Proved
    ///
    /// ```text
    /// ensures own { has_own_composite self a b ≡ true → result ≡ own_composite self a b }
    /// ensures hangul { has_own_composite self a b ≡ false → (s : ℕ) → HangulComposes s a b → result ≡ Some s }
    /// ensures data { has_own_composite self a b ≡ false → ((s : ℕ) → ¬ HangulComposes s a b)
    ///     → result ≡ other_composite self has_gpos_mark a b }
    /// ```
    #[inline]
    pub fn compose(self, a: char, b: char, has_gpos_mark: bool) -> Option<char> {
        match self {
            Indic => crate::script_indic::composition::compose(a, b),
            Khmer | Universal | UniversalJoining => {
                crate::script_syllables::composition::compose(a, b)
            }
            Hebrew => compose_hebrew(a, b, has_gpos_mark),
            Default | Arabic | Hangul | Thai | Myanmar | Zawgyi | Plain => {
                crate::unicode_tables::compose(a, b)
            }
        }
    }

    /// The one or two characters that a character decomposes to.
    ///
    /// # Proved
    ///
    /// ```text
    /// ensures own { has_own_parts self character ≡ true → result ≡ own_parts self character }
    /// ensures hangul { has_own_parts self character ≡ false → (a b : ℕ) → HangulComposes character a b
    ///     → result ≡ Some (a, Some b) }
    /// ensures data { has_own_parts self character ≡ false → ((a b : ℕ) → ¬ HangulComposes character a b)
    ///     → result ≡ parts_of (canonical_mapping character) }
    /// ```
    #[inline]
    pub fn decompose(self, character: char) -> Option<(char, Option<char>)> {
        match self {
            Indic => crate::script_indic::composition::decompose(character),
            Khmer => khmer::composition::decompose(character),
            _ => crate::unicode_tables::decompose(character),
        }
    }

    /// Puts marks in another order, in a run of them that is in the order of their classes.
    ///
    /// # Requires
    ///
    /// - `buffer.old.have_output ≡ false`
    ///
    /// # Proved
    ///
    /// ```text
    /// ensures { StaysClosed buffer.old buffer.new }
    /// ```
    #[inline]
    pub fn reorder_marks(self, buffer: &mut hb_buffer_t, start: usize, end: usize) {
        debug_assert!(!buffer.have_output());
        match self {
            Arabic => arabic::marks::reorder_marks(buffer, start, end),
            Hebrew => hebrew::reorder_marks(buffer, start, end),
            _ => {}
        }
    }
}

/// What a character and the next one compose to in Hebrew.
fn compose_hebrew(a: char, b: char, has_gpos_mark: bool) -> Option<char> {
    match crate::unicode_tables::compose(a, b) {
        None if !has_gpos_mark => hebrew::presentation_form(a, b),
        composed => composed,
    }
}

/// Whether the letters of a text join as those of Arabic do.
fn is_arabic(script: Script, direction: Direction, gsub_script: Tag) -> bool {
    let joins = script == script::ARABIC
        || script == script::SYRIAC && gsub_script != Tag::from_bytes(b"DFLT");
    joins && direction.is_horizontal()
}

/// The shaper of a script whose letters do not join so.
fn shaper_of(script: Script, gsub_script: Tag) -> ScriptShaper {
    if script == script::HEBREW {
        Hebrew
    } else if script == script::HANGUL {
        Hangul
    } else if script == script::THAI || script == script::LAO {
        Thai
    } else if is_indic(script) {
        indic_shaper(script, gsub_script)
    } else {
        syllabic_shaper(script, gsub_script)
    }
}

/// The shaper of Khmer, Myanmar and what the universal shaper serves.
fn syllabic_shaper(script: Script, gsub_script: Tag) -> ScriptShaper {
    if script == script::KHMER {
        Khmer
    } else if script == script::MYANMAR {
        myanmar_shaper(gsub_script)
    } else if script == script::MYANMAR_ZAWGYI {
        Zawgyi
    } else if is_universal(script) {
        universal_shaper(script, gsub_script)
    } else {
        Default
    }
}

/// The shaper of Myanmar, by the tag that the font has it under: the older one is from before syllables
/// were shaped.
fn myanmar_shaper(gsub_script: Tag) -> ScriptShaper {
    if is_for_others(gsub_script) || gsub_script == Tag::from_bytes(b"mymr") {
        Default
    } else {
        Myanmar
    }
}

/// The shaper of an Indic script, by the tag that the font has it under.
fn indic_shaper(script: Script, gsub_script: Tag) -> ScriptShaper {
    if !is_for_others(gsub_script) && gsub_script.0 % 256 != u32::from(b'3') {
        Indic
    } else {
        universal_shaper(script, gsub_script)
    }
}

/// The shaper of a script that the universal shaper serves, by the tag that the font has it under.
fn universal_shaper(script: Script, gsub_script: Tag) -> ScriptShaper {
    if is_for_others(gsub_script) {
        Default
    } else if joins(script) {
        UniversalJoining
    } else {
        Universal
    }
}

/// Whether a font was made for other scripts.
fn is_for_others(gsub_script: Tag) -> bool {
    gsub_script == Tag::from_bytes(b"DFLT") || gsub_script == Tag::from_bytes(b"latn")
}

impl ScriptPlan {
    /// Changes the text before it is shaped: Hangul syllables by what the font has, and the vowel AM of
    /// Thai and Lao.
    ///
    /// # Requires
    ///
    /// - `buffer.old.have_output ≡ false`
    ///
    /// # Errors
    ///
    /// `Ok(false)` where the text would become too long. `Err(AllocError)` where memory ran out.
    ///
    /// # Proved
    ///
    /// ```text
    /// ensures { Closes result buffer.old buffer.new }
    /// ```
    #[inline]
    pub fn preprocess_text<F: FontGlyphs>(
        &self,
        buffer: &mut hb_buffer_t,
        font: &F,
    ) -> Result<bool, AllocError> {
        debug_assert!(!buffer.have_output());
        match self.shaper {
            Hangul => prepare(buffer, font),
            Thai => {
                if !split_all(buffer)? {
                    return Ok(false);
                }
                if self.has_private_use {
                    shape_private_use(buffer, font);
                }
                Ok(true)
            }
            Indic | Universal | UniversalJoining => part_vowels(buffer),
            _ => Ok(true),
        }
    }

    /// Gives each item the masks of its own: the forms of letters, and the jamo of Hangul.
    ///
    /// # Requires
    ///
    /// - `buffer.old.have_output ≡ false`
    ///
    /// # Proved
    ///
    /// ```text
    /// ensures { StaysClosed buffer.old buffer.new }
    /// ```
    #[inline]
    pub fn setup_masks(&self, buffer: &mut hb_buffer_t) {
        debug_assert!(!buffer.have_output());
        match self.shaper {
            Arabic | UniversalJoining => {
                self.form_letters(buffer);
                add_masks(buffer, &self.masks);
            }
            Hangul => add_masks(buffer, &self.masks),
            _ => {}
        }
    }

    /// Gives each letter that joins others its form.
    ///
    /// # Requires
    ///
    /// - `buffer.old.have_output ≡ false`
    fn form_letters(&self, buffer: &mut hb_buffer_t) {
        debug_assert!(!buffer.have_output());
        arabic::masks::join_letters(buffer);
        if self.is_mongolian {
            arabic::masks::form_variation_selectors(buffer);
        }
    }

    /// Notes the marks that the feature `stch` has made pieces of, at its pause.
    ///
    /// # Requires
    ///
    /// - `buffer.old.have_output ≡ false`
    ///
    /// # Proved
    ///
    /// ```text
    /// ensures { StaysClosed buffer.old buffer.new }
    /// ```
    #[inline]
    pub fn record_stch(&self, buffer: &mut hb_buffer_t) {
        debug_assert!(!buffer.have_output());
        if self.has_stch {
            record_pieces(buffer);
        }
    }

    /// Changes glyphs that have their positions: marks of Arabic and Syriac are stretched over words.
    ///
    /// # Requires
    ///
    /// - `closed: buffer.old.have_output ≡ false`
    /// - `placed: IsSome buffer.old.positions`
    ///
    /// # Errors
    ///
    /// `Ok(false)` where the text would become too long. `Err(AllocError)` where memory ran out.
    ///
    /// # Proved
    ///
    /// ```text
    /// ensures placed { IfOk result (λ done. done ≡ true → IsSome buffer.new.positions) }
    /// ensures closes { Closes result buffer.old buffer.new }
    /// ```
    #[inline]
    pub fn postprocess_glyphs<F: FontGlyphs>(
        &self,

        buffer: &mut hb_buffer_t,
        font: &F,
    ) -> Result<bool, AllocError> {
        debug_assert!(!buffer.have_output());
        debug_assert!(buffer.have_positions());
        if self.shaper == Arabic {
            stretch(buffer, font)
        } else {
            Ok(true)
        }
    }
}
