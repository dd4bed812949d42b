//! The front of rustybuzz: a program that shapes text with it is compiled with `vukhaso::rustybuzz` in the place of `rustybuzz`.
//!
//! The types and calls are those of the crate's root, with rustybuzz's answers: where memory runs out they panic, as a `Vec` of
//! Rust does, and a text that becomes longer than its limit has no glyphs.

use crate::FaceNames;
use crate::memory::AllocError;

pub use crate::{
    BufferFlags, Direction, Face, Feature, GlyphInfo, GlyphPosition, Language, Script,
    SerializeFlags, Tag, script,
};

/// The value of a call that memory sufficed for.
fn held<T>(answer: Result<T, AllocError>) -> T {
    match answer {
        Ok(value) => value,
        Err(AllocError) => panic!("out of memory"),
    }
}

/// How far clusters are merged: the levels that rustybuzz has.
#[derive(Clone, Copy, Debug, Default, PartialEq, Eq, Hash)]
pub enum BufferClusterLevel {
    /// Clusters rise or fall, and a grapheme is in one.
    #[default]
    MonotoneGraphemes,
    /// Clusters rise or fall, and characters are not merged before they are shaped.
    MonotoneCharacters,
    /// Clusters are not merged.
    Characters,
}

impl From<BufferClusterLevel> for crate::BufferClusterLevel {
    fn from(level: BufferClusterLevel) -> Self {
        match level {
            BufferClusterLevel::MonotoneGraphemes => Self::MonotoneGraphemes,
            BufferClusterLevel::MonotoneCharacters => Self::MonotoneCharacters,
            BufferClusterLevel::Characters => Self::Characters,
        }
    }
}

impl From<crate::BufferClusterLevel> for BufferClusterLevel {
    /// The level; one that rustybuzz does not have is its default.
    fn from(level: crate::BufferClusterLevel) -> Self {
        match level {
            crate::BufferClusterLevel::MonotoneCharacters => Self::MonotoneCharacters,
            crate::BufferClusterLevel::Characters => Self::Characters,
            _ => Self::MonotoneGraphemes,
        }
    }
}

/// A text, before it is shaped.
#[derive(Default, Debug)]
pub struct UnicodeBuffer(crate::UnicodeBuffer);

impl UnicodeBuffer {
    /// An empty text.
    pub fn new() -> UnicodeBuffer {
        UnicodeBuffer(crate::UnicodeBuffer::new())
    }

    /// How many characters there are.
    pub fn len(&self) -> usize {
        self.0.len()
    }

    /// Whether there is no character.
    pub fn is_empty(&self) -> bool {
        self.0.is_empty()
    }

    /// Adds the characters of a text, each in the cluster of its place in bytes.
    pub fn push_str(&mut self, text: &str) {
        let _is_held = held(self.0.push_str(text));
    }

    /// Adds a character in a cluster.
    pub fn add(&mut self, codepoint: char, cluster: u32) {
        let _is_held = held(self.0.add(codepoint, cluster));
    }

    /// Says what stands before the text.
    pub fn set_pre_context(&mut self, text: &str) {
        self.0.set_pre_context(text);
    }

    /// Says what stands behind the text.
    pub fn set_post_context(&mut self, text: &str) {
        self.0.set_post_context(text);
    }

    /// Says in which way the line runs.
    pub fn set_direction(&mut self, direction: Direction) {
        self.0.set_direction(direction);
    }

    /// The way in which the line runs.
    pub fn direction(&self) -> Direction {
        self.0.direction()
    }

    /// Says the script of the text.
    pub fn set_script(&mut self, script: Script) {
        self.0.set_script(script);
    }

    /// The script of the text.
    pub fn script(&self) -> Script {
        self.0.script()
    }

    /// Says the language of the text.
    pub fn set_language(&mut self, language: Language) {
        self.0.set_language(language);
    }

    /// The language of the text.
    pub fn language(&self) -> Option<Language> {
        self.0.language().cloned()
    }

    /// Says the glyph of variation selectors that the font does not know.
    pub fn set_not_found_variation_selector_glyph(&mut self, glyph: u32) {
        self.0.set_not_found_variation_selector_glyph(glyph);
    }

    /// Guesses the script and the direction where they were not said.
    pub fn guess_segment_properties(&mut self) {
        self.0.guess_segment_properties();
    }

    /// Says how the text is shaped.
    pub fn set_flags(&mut self, flags: BufferFlags) {
        self.0.set_flags(flags);
    }

    /// How the text is shaped.
    pub fn flags(&self) -> BufferFlags {
        self.0.flags()
    }

    /// Says how clusters are made.
    pub fn set_cluster_level(&mut self, cluster_level: BufferClusterLevel) {
        self.0.set_cluster_level(cluster_level.into());
    }

    /// How clusters are made.
    pub fn cluster_level(&self) -> BufferClusterLevel {
        self.0.cluster_level().into()
    }

    /// Gives each character the cluster of its place.
    pub fn reset_clusters(&mut self) {
        self.0.reset_clusters();
    }

    /// Takes the characters and their properties out; the memory is used again.
    pub fn clear(&mut self) {
        self.0.clear();
    }
}

/// The glyphs of a text that was shaped.
#[derive(Debug)]
pub struct GlyphBuffer(crate::GlyphBuffer);

impl GlyphBuffer {
    /// How many glyphs there are.
    pub fn len(&self) -> usize {
        self.0.len()
    }

    /// Whether there is no glyph.
    pub fn is_empty(&self) -> bool {
        self.0.is_empty()
    }

    /// The glyphs, each with its cluster.
    pub fn glyph_infos(&self) -> &[GlyphInfo] {
        self.0.glyph_infos()
    }

    /// Where the glyphs stand.
    pub fn glyph_positions(&self) -> &[GlyphPosition] {
        self.0.glyph_positions()
    }

    /// An empty text in the memory of these glyphs.
    pub fn clear(self) -> UnicodeBuffer {
        UnicodeBuffer(self.0.clear())
    }

    /// The text of the glyphs, as `hb-shape` writes it.
    pub fn serialize(&self, face: &Face, flags: SerializeFlags) -> alloc::string::String {
        let mut names = held(FaceNames::new(face));
        if flags.contains(SerializeFlags::GLYPH_EXTENTS) {
            held(names.find_extents(self.0.glyph_infos()));
        }
        let text = held(self.0.serialize(&names, flags));
        alloc::string::String::from(text.as_str())
    }
}

/// How texts of a script, a language and a direction are shaped by a font.
pub struct ShapePlan(crate::ShapePlan);

impl ShapePlan {
    /// The plan for texts with these properties, for this font.
    pub fn new(
        face: &Face,
        direction: Direction,
        script: Option<Script>,
        language: Option<&Language>,
        user_features: &[Feature],
    ) -> ShapePlan {
        ShapePlan(held(crate::ShapePlan::new(
            face,
            direction,
            script,
            language,
            user_features,
        )))
    }

    /// The direction of its texts.
    pub fn direction(&self) -> Direction {
        self.0.direction()
    }

    /// The script of its texts.
    pub fn script(&self) -> Option<Script> {
        self.0.script()
    }
}

/// The glyphs of an answer.
fn answered(answer: Result<crate::GlyphBuffer, crate::ShapeError>) -> GlyphBuffer {
    match answer {
        Ok(glyphs) => GlyphBuffer(glyphs),
        Err(crate::ShapeError::Memory) => panic!("out of memory"),
        Err(crate::ShapeError::OtherPlan) => panic!("the plan is for other texts"),
        Err(_) => {
            let mut buffer = crate::UnicodeBuffer::new().into_buffer();
            buffer.clear_positions();
            GlyphBuffer(crate::GlyphBuffer::from_buffer(buffer))
        }
    }
}

/// Shapes a text by a font. A script and a direction that were not said are guessed.
pub fn shape(face: &Face, features: &[Feature], buffer: UnicodeBuffer) -> GlyphBuffer {
    answered(crate::shape(face, features, buffer.0))
}

/// Shapes a text by a font and a plan that was made for both. It panics where the text has another script, language or direction, or
/// the font was moved in its variations since.
pub fn shape_with_plan(face: &Face, plan: &ShapePlan, buffer: UnicodeBuffer) -> GlyphBuffer {
    answered(crate::shape_with_plan(face, &plan.0, buffer.0))
}
