//! Texts, glyphs, and shaping.

use crate::{
    BufferClusterLevel, BufferFlags, Direction, Face, Feature, GlyphInfo, GlyphPosition, Language,
    Script, SerializeFlags,
};
use alloc::string::String;
use alloc::vec::Vec;
use core::fmt;
use vukhaso::rustybuzz as front;

/// A text, before it is shaped.
#[derive(Default)]
pub struct UnicodeBuffer(front::UnicodeBuffer);

impl UnicodeBuffer {
    /// An empty text.
    pub fn new() -> UnicodeBuffer {
        UnicodeBuffer::default()
    }

    /// How many characters there are.
    pub fn len(&self) -> usize {
        self.0.len()
    }

    /// Whether there is no character.
    pub fn is_empty(&self) -> bool {
        self.0.is_empty()
    }

    /// Adds the characters of a text, each in the cluster of its place in bytes.
    pub fn push_str(&mut self, text: &str) {
        self.0.push_str(text);
    }

    /// Adds a character in a cluster.
    pub fn add(&mut self, codepoint: char, cluster: u32) {
        self.0.add(codepoint, cluster);
    }

    /// Says what stands before the text.
    pub fn set_pre_context(&mut self, text: &str) {
        self.0.set_pre_context(text);
    }

    /// Says what stands behind the text.
    pub fn set_post_context(&mut self, text: &str) {
        self.0.set_post_context(text);
    }

    /// Says in which way the line runs.
    pub fn set_direction(&mut self, direction: Direction) {
        self.0.set_direction(direction);
    }

    /// The way in which the line runs.
    pub fn direction(&self) -> Direction {
        self.0.direction()
    }

    /// Says the script of the text.
    pub fn set_script(&mut self, script: Script) {
        self.0.set_script(script.0);
    }

    /// The script of the text.
    pub fn script(&self) -> Script {
        Script(self.0.script())
    }

    /// Says the language of the text.
    pub fn set_language(&mut self, language: Language) {
        self.0.set_language(language.0);
    }

    /// The language of the text.
    pub fn language(&self) -> Option<Language> {
        self.0.language().map(Language)
    }

    /// Says the glyph of variation selectors that the font does not know.
    pub fn set_not_found_variation_selector_glyph(&mut self, glyph: u32) {
        self.0.set_not_found_variation_selector_glyph(glyph);
    }

    /// Says the glyph of variation selectors that the font does not know.
    pub fn set_not_found_variation_selector(&mut self, glyph: u32) {
        self.set_not_found_variation_selector_glyph(glyph);
    }

    /// Guesses the script and the direction where they were not said.
    pub fn guess_segment_properties(&mut self) {
        self.0.guess_segment_properties();
    }

    /// Says how the text is shaped.
    pub fn set_flags(&mut self, flags: BufferFlags) {
        self.0.set_flags(flags);
    }

    /// How the text is shaped.
    pub fn flags(&self) -> BufferFlags {
        self.0.flags()
    }

    /// Says how far clusters are merged.
    pub fn set_cluster_level(&mut self, cluster_level: BufferClusterLevel) {
        self.0.set_cluster_level(cluster_level);
    }

    /// How far clusters are merged.
    pub fn cluster_level(&self) -> BufferClusterLevel {
        self.0.cluster_level()
    }

    /// Gives each character the cluster of its place.
    pub fn reset_clusters(&mut self) {
        self.0.reset_clusters();
    }

    /// Takes the characters and their properties out; the memory is used again.
    pub fn clear(&mut self) {
        self.0.clear();
    }
}

impl fmt::Debug for UnicodeBuffer {
    fn fmt(&self, f: &mut fmt::Formatter<'_>) -> fmt::Result {
        self.0.fmt(f)
    }
}

/// The glyphs of a text that was shaped.
pub struct GlyphBuffer(front::GlyphBuffer);

impl GlyphBuffer {
    /// How many glyphs there are.
    pub fn len(&self) -> usize {
        self.0.len()
    }

    /// Whether there is no glyph.
    pub fn is_empty(&self) -> bool {
        self.0.is_empty()
    }

    /// The glyphs, each with its cluster.
    pub fn glyph_infos(&self) -> &[GlyphInfo] {
        self.0.glyph_infos()
    }

    /// Where the glyphs stand.
    pub fn glyph_positions(&self) -> &[GlyphPosition] {
        self.0.glyph_positions()
    }

    /// An empty text in the memory of these glyphs.
    pub fn clear(self) -> UnicodeBuffer {
        UnicodeBuffer(self.0.clear())
    }

    /// The text of the glyphs, as `hb-shape` writes it.
    pub fn serialize(&self, face: &Face, flags: SerializeFlags) -> String {
        self.0.serialize(&face.shaped, flags)
    }
}

impl fmt::Debug for GlyphBuffer {
    fn fmt(&self, f: &mut fmt::Formatter<'_>) -> fmt::Result {
        self.0.fmt(f)
    }
}

/// How texts of a script, a language and a direction are shaped with a font.
pub struct ShapePlan(front::ShapePlan);

impl ShapePlan {
    /// The plan for texts with these properties, for this font.
    pub fn new(
        face: &Face,
        direction: Direction,
        script: Option<Script>,
        language: Option<&Language>,
        user_features: &[Feature],
    ) -> ShapePlan {
        ShapePlan(front::ShapePlan::new(
            &face.shaped,
            direction,
            script.map(|script| script.0),
            language.map(|language| &language.0),
            &taken(user_features),
        ))
    }

    /// The direction of its texts.
    pub fn direction(&self) -> Direction {
        self.0.direction()
    }

    /// The script of its texts.
    pub fn script(&self) -> Option<Script> {
        self.0.script().map(Script)
    }
}

fn taken(features: &[Feature]) -> Vec<vukhaso::Feature> {
    features.iter().copied().map(Into::into).collect()
}

/// Shapes a text with a font. A script and a direction that were not said are guessed.
pub fn shape(face: &Face, features: &[Feature], buffer: UnicodeBuffer) -> GlyphBuffer {
    GlyphBuffer(front::shape(&face.shaped, &taken(features), buffer.0))
}

/// Shapes a text with a font and a plan that was made for both. It panics where the text has another script, language or direction, or
/// the font was moved in its variations since.
pub fn shape_with_plan(face: &Face, plan: &ShapePlan, buffer: UnicodeBuffer) -> GlyphBuffer {
    GlyphBuffer(front::shape_with_plan(&face.shaped, &plan.0, buffer.0))
}
