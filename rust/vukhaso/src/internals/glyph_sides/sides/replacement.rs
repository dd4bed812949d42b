// Written by tools/plain_rust from crates/glyph_sides. Do not edit.

//! Several glyphs give way to copies of the first.

use super::Sides;
use crate::glyph::hb_glyph_info_t;
use crate::glyph_lists::cluster_order::ClusterOrder;
use crate::glyph_lists::merged_head::{keeps_head, lowered_head};
use crate::glyph_sides::copies::{append_copies, write_copies};
use crate::glyph_sides::merged_copies::{append_merged, write_merged};
use crate::glyph_sides::shifts::leave;
use crate::memory::AllocError;

impl Sides {
    /// Puts copies of the current glyph out in place of the first `count` glyphs of the input, one under
    /// each id, where the merge of these glyphs leaves it as it is and the copies have room. Answers
    /// whether it did: else nothing changes. The out side then holds at most `max_len` glyphs: in place it
    /// has no more than were read.
    ///
    /// # Requires
    ///
    /// An open output, a glyph at the cursor and as many glyphs there, and that neither side holds more
    /// than `max_len`.
    ///
    /// - `opened: self.old.is_open ≡ true`
    /// - `glyph: 0 < length self.old.input`
    /// - `within: count ≤ length self.old.input`
    /// - `out: length self.old.out ≤ max_len`
    /// - `input: len self.old ≤ max_len`
    ///
    /// # Proved
    ///
    /// ```text
    /// ensures done { result ≡ true → self.new ≡ replaced (is_any order) count ids.now self.old }
    /// ensures out_len { result ≡ true
    ///     → length self.new.out ≡ length self.old.out + length ids.now }
    /// ensures input_len { result ≡ true
    ///     → length self.new.input + count ≡ length self.old.input }
    /// ensures fits { result ≡ true → length self.old.out + length ids.now ≤ max_len }
    /// ensures unmarked { result ≡ true → is_any order ≡ true → count < 2 }
    /// ensures same { result ≡ false → self.new ≡ self.old }
    /// ```
    #[inline(always)]
    pub fn replace_kept(
        &mut self,
        count: usize,
        ids: &[u32],
        order: ClusterOrder,
        max_len: usize,
    ) -> bool {
        // Read before the test, the glyph is kept in one piece for the copies.
        debug_assert!(self.is_open());
        debug_assert!(!self.input().is_empty());
        debug_assert!(count <= self.input().len());
        debug_assert!(self.out_len() <= max_len);
        debug_assert!(self.len() <= max_len);
        let head = self.info[self.cursor];
        if !keeps_head(&self.info[self.cursor..], count, order) {
            return false;
        }
        if self.is_separate && ids.len() > max_len - self.out_info.len() {
            return false;
        }
        self.put_copies(head, ids, count)
    }

    /// Puts a copy of a glyph out under each id, where they have room, and reads some. Answers whether it
    /// did: else nothing changes.
    ///
    /// # Requires
    ///
    /// - `opened: self.old.is_open ≡ true`
    /// - `within: read ≤ length self.old.input`
    #[inline(always)]
    fn put_copies(&mut self, glyph: hb_glyph_info_t, ids: &[u32], read: usize) -> bool {
        debug_assert!(self.is_open());
        debug_assert!(read <= self.input().len());
        if self.is_separate {
            if self.out_info.len() + ids.len() > self.out_info.capacity() {
                return false;
            }
            append_copies(&mut self.out_info, glyph, ids);
            self.cursor += read;
            return true;
        }
        let (gap, cursor) = (self.gap, self.cursor);
        if ids.len() > gap + read {
            return false;
        }
        write_copies(&mut self.info, cursor - gap, glyph, ids);
        self.gap = gap + read - ids.len();
        self.cursor = cursor + read;
        true
    }

    /// Merges, or marks, the first `count` glyphs of the input, and puts out copies of the first as it then
    /// stands in place of them, one under each id.
    ///
    /// # Requires
    ///
    /// An open output, a glyph at the cursor and as many glyphs there.
    ///
    /// - `opened: self.old.is_open ≡ true`
    /// - `glyph: 0 < length self.old.input`
    /// - `within: count ≤ length self.old.input`
    ///
    /// # Errors
    ///
    /// `Err(AllocError)` where memory ran out.
    ///
    /// # Proved
    ///
    /// ```text
    /// ensures made { Makes (replaced (is_any order) count ids.now self.old) self.old result self.new }
    /// ensures out_len { OnOk result
    ///     (length self.new.out ≡ length self.old.out + length ids.now) }
    /// ensures input_len { OnOk result
    ///     (length self.new.input + count ≡ length self.old.input) }
    /// ```
    #[inline]
    pub fn replace(
        &mut self,
        count: usize,
        ids: &[u32],
        order: ClusterOrder,
    ) -> Result<(), AllocError> {
        debug_assert!(self.is_open());
        debug_assert!(!self.input().is_empty());
        debug_assert!(count <= self.input().len());
        if let Some(head) = lowered_head(self.out(), self.input(), count, order) {
            if self.put_copies(head, ids, count) {
                return Ok(());
            }
        }
        self.replace_merged(count, ids, order)
    }

    /// Replaces as `replace` does, whatever the merge changes.
    ///
    /// # Requires
    ///
    /// - `opened: self.old.is_open ≡ true`
    /// - `glyph: 0 < length self.old.input`
    /// - `within: count ≤ length self.old.input`
    fn replace_merged(
        &mut self,
        count: usize,
        ids: &[u32],
        order: ClusterOrder,
    ) -> Result<(), AllocError> {
        debug_assert!(self.is_open());
        debug_assert!(!self.input().is_empty());
        debug_assert!(count <= self.input().len());
        if self.is_separate || ids.len() > self.gap + count {
            return self.replace_separate(count, ids, order);
        }
        self.replace_in_place(count, ids, order);
        Ok(())
    }

    /// # Requires
    ///
    /// - `opened: self.old.is_open ≡ true`
    /// - `glyph: 0 < length self.old.input`
    /// - `within: count ≤ length self.old.input`
    /// - `separate: self.old.is_separate ≡ false → self.old.idx + count < length self.old.out + length ids.now`
    fn replace_separate(
        &mut self,
        count: usize,
        ids: &[u32],
        order: ClusterOrder,
    ) -> Result<(), AllocError> {
        debug_assert!(self.is_open());
        debug_assert!(!self.input().is_empty());
        debug_assert!(count <= self.input().len());
        debug_assert!(self.is_separate() || self.idx() + count < self.out_len() + ids.len());
        let at = self.cursor;
        let placed = if self.is_separate { 0 } else { at - self.gap };
        leave(&mut self.out_info, &self.info[..placed], ids.len())?;
        append_merged(&mut self.out_info, &mut self.info[at..], count, ids, order);
        self.gap = 0;
        self.is_separate = true;
        self.cursor = at + count;
        Ok(())
    }

    /// # Requires
    ///
    /// - `opened: self.old.is_open ≡ true`
    /// - `in_place: self.old.is_separate ≡ false`
    /// - `glyph: 0 < length self.old.input`
    /// - `within: count ≤ length self.old.input`
    /// - `room: length self.old.out + length ids.now ≤ self.old.idx + count`
    fn replace_in_place(&mut self, count: usize, ids: &[u32], order: ClusterOrder) {
        debug_assert!(self.is_open());
        debug_assert!(!self.is_separate());
        debug_assert!(!self.input().is_empty());
        debug_assert!(count <= self.input().len());
        debug_assert!(self.out_len() + ids.len() <= self.idx() + count);
        let (gap, cursor) = (self.gap, self.cursor);
        write_merged(&mut self.info, cursor - gap..cursor, count, ids, order);
        self.gap = gap + count - ids.len();
        self.cursor = cursor + count;
    }
}
