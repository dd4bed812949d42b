// Written by tools/plain_rust from crates/shaping_buffer. Do not edit.

//! What is said of a text: its contexts, its script and direction, and the numbers of its clusters.

use super::hb_buffer_t;
use crate::glyph_lists::{cluster_numbers, context, guess};
use crate::text::Direction;

impl hb_buffer_t {
    /// Keeps the last five characters of the text before, from its end outward.
    pub(crate) fn set_pre_context(&mut self, text: &str) {
        context::keep_before(&mut self.pre_context, text);
    }

    /// Keeps the first five characters of the text after.
    pub(crate) fn set_post_context(&mut self, text: &str) {
        context::keep_after(&mut self.post_context, text);
    }

    /// Gives each glyph its place as cluster, modulo 2^32.
    ///
    /// # Requires
    ///
    /// That no output is open.
    ///
    /// - `self.old.have_output ≡ false`
    ///
    /// # Proved
    ///
    /// ```text
    /// ensures { self.new ≡ with_clusters_reset self.old }
    /// ```
    #[inline]
    pub fn reset_clusters(&mut self) {
        debug_assert!(!self.have_output());
        cluster_numbers::reset_clusters(self.sides.list_mut());
    }

    /// Fills in what was not said: the script, as that of the first character which is not common,
    /// inherited or unknown, and the direction, as that of the script, or else from left to right. The
    /// language stays.
    ///
    /// # Requires
    ///
    /// That no output is open and the ids are characters.
    ///
    /// - `closed: self.old.have_output ≡ false`
    /// - `characters: AreCharacters self.old.input`
    ///
    /// # Proved
    ///
    /// ```text
    /// ensures { self.new ≡ guessed self.old }
    /// ```
    #[inline]
    pub fn guess_segment_properties(&mut self) {
        debug_assert!(!self.have_output());
        debug_assert!(
            self.info()
                .iter()
                .all(|glyph| char::from_u32(glyph.glyph_id).is_some())
        );
        if self.script.is_none() {
            self.script = guess::first_script(self.sides.input());
        }
        if self.direction == Direction::Invalid {
            self.direction = guess::guess_direction(self.script);
        }
    }
}
