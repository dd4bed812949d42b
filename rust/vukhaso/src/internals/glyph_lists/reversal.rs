// Written by tools/plain_rust from crates/glyph_lists. Do not edit.

//! Lists that are put into reverse order.

use crate::glyph::{GlyphPosition, hb_glyph_info_t};

/// An item that can be copied word by word. The words of such a copy stay in registers, where a copy of the whole goes
/// through memory.
pub trait Words: Copy {
    /// The same item, made of its words.
    ///
    /// # Proved
    ///
    /// ```text
    /// ensures { result ≡ self.now }
    /// ```
    fn by_words(&self) -> Self;

    /// Makes it the same as another, word by word.
    ///
    /// # Proved
    ///
    /// ```text
    /// ensures { self.new ≡ other }
    /// ```
    fn set_words(&mut self, other: Self);
}

impl Words for hb_glyph_info_t {
    #[inline(always)]
    fn by_words(&self) -> Self {
        hb_glyph_info_t {
            glyph_id: self.glyph_id,
            mask: self.mask,
            cluster: self.cluster,
            var1: self.var1,
            var2: self.var2,
        }
    }

    #[inline(always)]
    fn set_words(&mut self, other: Self) {
        self.glyph_id = other.glyph_id;
        self.mask = other.mask;
        self.cluster = other.cluster;
        self.var1 = other.var1;
        self.var2 = other.var2;
    }
}

impl Words for GlyphPosition {
    #[inline(always)]
    fn by_words(&self) -> Self {
        GlyphPosition {
            x_advance: self.x_advance,
            y_advance: self.y_advance,
            x_offset: self.x_offset,
            y_offset: self.y_offset,
            var: self.var,
        }
    }

    #[inline(always)]
    fn set_words(&mut self, other: Self) {
        self.x_advance = other.x_advance;
        self.y_advance = other.y_advance;
        self.x_offset = other.x_offset;
        self.y_offset = other.y_offset;
        self.var = other.var;
    }
}

/// Puts the items into reverse order.
///
/// # Proved
///
/// ```text
/// ensures { items.new ≡ reverse items.old }
/// ```
#[inline]
pub fn reverse<T: Words>(items: &mut [T]) {
    let len = items.len();
    for i in 0..len / 2 {
        let first = items[i].by_words();
        let last = items[len - 1 - i].by_words();
        items[i].set_words(last);
        items[len - 1 - i].set_words(first);
    }
}
