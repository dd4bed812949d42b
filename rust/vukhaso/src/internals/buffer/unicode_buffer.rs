// Written by tools/plain_rust from crates/shaping_buffer. Do not edit.

//! A text before it is shaped.

use crate::buffer::buffer::hb_buffer_t;
use crate::buffer::cluster_level::BufferClusterLevel;
use crate::glyph::BufferFlags;
use crate::memory::AllocError;
use crate::text::{Direction, Language, Script, script};

/// Characters in reading order, each with a cluster number, before they are shaped.
///
/// # Proved
///
/// ```text
/// ghost Value = { State }
/// ghost view = { λ u. u.buffer }
/// ghost invariant = { λ u. IsText u.buffer }
/// ```
pub struct UnicodeBuffer {
    buffer: hb_buffer_t,
}

impl UnicodeBuffer {
    /// An empty text, which takes its memory from `alloc` later.
    ///
    /// # Proved
    ///
    /// ```text
    /// ensures empty { result
    ///     ≡ empty_state hb_buffer_t.MAX_LEN_DEFAULT hb_buffer_t.MAX_OPS_DEFAULT }
    /// ensures max_len { result.max_len ≡ 0x3FFF_FFFF }
    /// ensures max_ops { result.max_ops ≡ pos 0x1FFF_FFFF }
    /// ```
    #[inline]
    pub fn new() -> Self {
        UnicodeBuffer {
            buffer: hb_buffer_t::new(),
        }
    }

    /// How many characters there are.
    ///
    /// # Proved
    ///
    /// ```text
    /// ensures { result ≡ length self.now.input }
    /// ```
    #[inline]
    pub fn len(&self) -> usize {
        self.buffer.len()
    }

    /// Whether there are no characters.
    ///
    /// # Proved
    ///
    /// ```text
    /// ensures { IsTrue result ↔ (length self.now.input ≡ 0) }
    /// ```
    #[inline]
    pub fn is_empty(&self) -> bool {
        self.buffer.is_empty()
    }

    /// Pushes the characters of a text, all or none, as HarfBuzz's `hb_buffer_add_utf8`. The cluster of
    /// each is the place of its first byte in this text, modulo 2^32, so that a second text begins at 0
    /// again.
    ///
    /// # Errors
    ///
    /// `Ok(false)` where the text would grow too long: then only whether a call was refused changes.
    /// `Err(AllocError)` where memory ran out: then nothing changed.
    ///
    /// # Proved
    ///
    /// ```text
    /// ensures { GrowthMeets (pushed text.now self.old) self.old result self.new }
    /// ```
    #[inline]
    pub fn push_str(&mut self, text: &str) -> Result<bool, AllocError> {
        self.buffer.push_str(text)
    }

    /// Adds one character with a cluster, and forgets the text after it, as HarfBuzz's `hb_buffer_add`.
    ///
    /// # Errors
    ///
    /// `Ok(false)` where the text would grow too long: then only whether a call was refused changes.
    /// `Err(AllocError)` where memory ran out: then nothing changed.
    ///
    /// # Proved
    ///
    /// ```text
    /// ensures { GrowthMeets (added codepoint cluster self.old) self.old result self.new }
    /// ```
    #[inline]
    pub fn add(&mut self, codepoint: char, cluster: u32) -> Result<bool, AllocError> {
        self.buffer.add(codepoint, cluster)
    }

    /// Keeps the last five characters of the text that stands before, which some shapers ask for.
    ///
    /// # Proved
    ///
    /// ```text
    /// ensures { self.new ≡ with_pre_context text.now self.old }
    /// ```
    #[inline]
    pub fn set_pre_context(&mut self, text: &str) {
        self.buffer.set_pre_context(text);
    }

    /// Keeps the first five characters of the text that stands after, which some shapers ask for.
    ///
    /// # Proved
    ///
    /// ```text
    /// ensures { self.new ≡ with_post_context text.now self.old }
    /// ```
    #[inline]
    pub fn set_post_context(&mut self, text: &str) {
        self.buffer.set_post_context(text);
    }

    /// Says in which way the line runs.
    ///
    /// # Proved
    ///
    /// ```text
    /// ensures { self.new ≡ record self.old { direction = direction } }
    /// ```
    #[inline]
    pub fn set_direction(&mut self, direction: Direction) {
        self.buffer.direction = direction;
    }

    /// The way in which the line runs.
    ///
    /// # Proved
    ///
    /// ```text
    /// ensures { result ≡ self.now.direction }
    /// ```
    #[inline]
    pub fn direction(&self) -> Direction {
        self.buffer.direction
    }

    /// Says the script of the text.
    ///
    /// # Proved
    ///
    /// ```text
    /// ensures { self.new ≡ record self.old { script = Some script } }
    /// ```
    #[inline]
    pub fn set_script(&mut self, script: Script) {
        self.buffer.script = Some(script);
    }

    /// The script of the text, and [`script::UNKNOWN`] where none was said.
    ///
    /// # Proved
    ///
    /// ```text
    /// ensures { result ≡ unwrap_or self.now.script unknown_script }
    /// ```
    #[inline]
    pub fn script(&self) -> Script {
        self.buffer.script.unwrap_or(script::UNKNOWN)
    }

    /// Says the language of the text.
    ///
    /// # Proved
    ///
    /// ```text
    /// ensures { self.new ≡ record self.old { language = Some language } }
    /// ```
    #[inline]
    pub fn set_language(&mut self, language: Language) {
        self.buffer.language = Some(language);
    }

    /// The language of the text.
    ///
    /// # Proved
    ///
    /// ```text
    /// ensures { option_copied result ≡ self.now.language }
    /// ```
    #[inline]
    pub fn language(&self) -> Option<&Language> {
        self.buffer.language.as_ref()
    }

    /// Says which glyph stands for a variation selector that the font does not know.
    ///
    /// # Proved
    ///
    /// ```text
    /// ensures { self.new ≡ record self.old { not_found_variation_selector = Some glyph } }
    /// ```
    #[inline]
    pub fn set_not_found_variation_selector_glyph(&mut self, glyph: u32) {
        self.buffer.not_found_variation_selector = Some(glyph);
    }

    /// Fills in the script and the direction where none was said: the script of the first character that
    /// has one of its own (Unicode Standard Annex 24), and the direction of the text's script, or else from
    /// left to right. The language stays.
    ///
    /// # Proved
    ///
    /// ```text
    /// ensures { self.new ≡ guessed self.old }
    /// ```
    #[inline]
    pub fn guess_segment_properties(&mut self) {
        self.buffer.guess_segment_properties();
    }

    /// Says how the text is to be treated.
    ///
    /// # Proved
    ///
    /// ```text
    /// ensures { self.new ≡ record self.old { flags = flags } }
    /// ```
    #[inline]
    pub fn set_flags(&mut self, flags: BufferFlags) {
        self.buffer.flags = flags;
    }

    /// How the text is to be treated.
    ///
    /// # Proved
    ///
    /// ```text
    /// ensures { result ≡ self.now.flags }
    /// ```
    #[inline]
    pub fn flags(&self) -> BufferFlags {
        self.buffer.flags
    }

    /// Says how far clusters are merged.
    ///
    /// # Proved
    ///
    /// ```text
    /// ensures { self.new ≡ record self.old { cluster_level = level_of cluster_level } }
    /// ```
    #[inline]
    pub fn set_cluster_level(&mut self, cluster_level: BufferClusterLevel) {
        self.buffer.cluster_level = cluster_level.number();
    }

    /// How far clusters are merged.
    ///
    /// # Proved
    ///
    /// ```text
    /// ensures { result ≡ named_level self.now.cluster_level }
    /// ```
    #[inline]
    pub fn cluster_level(&self) -> BufferClusterLevel {
        BufferClusterLevel::of_number(self.buffer.cluster_level)
    }

    /// Gives each character its place as cluster, modulo 2^32.
    ///
    /// # Proved
    ///
    /// ```text
    /// ensures { self.new ≡ with_clusters_reset self.old }
    /// ```
    #[inline]
    pub fn reset_clusters(&mut self) {
        self.buffer.reset_clusters();
    }

    /// Empties the text, and forgets its contexts, its cluster level and what was said of it, as rustybuzz
    /// does. The buffer's `max_len`, `max_ops`, `flags`, `invisible` and `shaping_failed` stay, and all
    /// else is as in a new text.
    ///
    /// # Proved
    ///
    /// ```text
    /// ensures { self.new ≡ cleared self.old }
    /// ```
    #[inline]
    pub fn clear(&mut self) {
        self.buffer.clear();
    }

    /// The buffer in which the text is shaped.
    ///
    /// # Proved
    ///
    /// ```text
    /// ensures is { result ≡ self }
    /// ensures text { IsText result }
    /// ```
    #[inline]
    pub fn into_buffer(self) -> hb_buffer_t {
        self.buffer
    }

    /// An emptied buffer, for the next text.
    ///
    /// # Requires
    ///
    /// - `IsText buffer`
    pub(crate) fn of_cleared(buffer: hb_buffer_t) -> Self {
        UnicodeBuffer { buffer }
    }
}
