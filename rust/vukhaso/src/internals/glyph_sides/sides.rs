// Written by tools/plain_rust from crates/glyph_sides. Do not edit.

//! The type: its fields, what callers see of it, and its accessors.

use crate::glyph::hb_glyph_info_t;
use crate::glyph_sides::characters::append_characters;
use crate::memory::{AllocError, Vec};

mod both;
mod cursor;
mod references;
mod replacement;
mod rewind;

/// Two lists of glyphs with a cursor between them: the out side, that glyphs are put into, and the input, that they are
/// read from. With no output open there is one list, and the cursor in it.
///
/// # Proved
///
/// ```text
/// ghost Value = { TwoLists }
/// ghost view = { λ b. record {
///   is_open = b.is_open;
///   is_separate = b.is_separate;
///   out = if b.is_separate then b.out_info.items else take (placed b) b.info.items;
///   input = if b.is_open then drop b.cursor b.info.items else b.info.items;
///   idx = b.cursor - b.front;
///   room = b.room;
/// } }
/// ghost invariant = { IsStored }
/// ```
#[derive(Debug)]
pub struct Sides {
    /// The input from place `front` on; what lies before the cursor was read. While the output is in place, its first
    /// glyphs are those that were put out.
    info: Vec<hb_glyph_info_t>,
    /// What was put out, once it has left the storage of the input.
    out_info: Vec<hb_glyph_info_t>,
    /// How many places before the cursor stand free, where the output is in place: so many more glyphs were read than
    /// were put out.
    gap: usize,
    /// How many places in front of the input stand free, for rewinds past its start. There are none
    /// while the output is in place.
    front: usize,
    /// The place of the cursor in `info`.
    cursor: usize,
    /// For how many glyphs each of the two vectors has room, at least.
    room: usize,
    is_open: bool,
    is_separate: bool,
}

impl Sides {
    /// No glyphs, and no output. Memory is taken from `alloc` later.
    ///
    /// # Proved
    ///
    /// ```text
    /// ensures { result ≡ nothing 0 }
    /// ```
    #[inline]
    pub fn new() -> Self {
        Sides {
            info: Vec::new(),
            out_info: Vec::new(),
            gap: 0,
            front: 0,
            cursor: 0,
            room: 0,
            is_open: false,
            is_separate: false,
        }
    }

    /// Empties both sides. Their room stays.
    ///
    /// # Proved
    ///
    /// ```text
    /// ensures { self.new ≡ nothing self.old.room }
    /// ```
    #[inline]
    pub fn clear(&mut self) {
        self.info.clear();
        self.out_info.clear();
        self.gap = 0;
        self.front = 0;
        self.cursor = 0;
        self.is_open = false;
        self.is_separate = false;
    }

    /// Opens an output, with nothing in it, and puts the cursor at the start.
    ///
    /// # Requires
    ///
    /// That none is open.
    ///
    /// - `self.old.is_open ≡ false`
    ///
    /// # Proved
    ///
    /// ```text
    /// ensures { self.new ≡ opened self.old }
    /// ```
    #[inline(always)]
    pub fn open(&mut self) {
        debug_assert!(!self.is_open());
        self.is_open = true;
        self.cursor = 0;
    }

    /// Whether an output is open.
    ///
    /// # Proved
    ///
    /// ```text
    /// ensures is { result ≡ self.now.is_open }
    /// ensures sides { IsSides self.now }
    /// ```
    #[inline(always)]
    pub fn is_open(&self) -> bool {
        self.is_open
    }

    /// Whether what was put out has left the storage of the input.
    ///
    /// # Proved
    ///
    /// ```text
    /// ensures is { result ≡ self.now.is_separate }
    /// ensures sides { IsSides self.now }
    /// ```
    #[inline(always)]
    pub fn is_separate(&self) -> bool {
        self.is_separate
    }

    /// Whether the out side would hold more than `max_len` glyphs with `more` of those at the cursor put
    /// out. In place it never would, since they were read.
    ///
    /// # Requires
    ///
    /// As many glyphs at the cursor, and that neither side holds more than `max_len`.
    ///
    /// - `within: more ≤ lookahead_len self.now`
    /// - `out: length self.now.out ≤ max_len`
    /// - `input: len self.now ≤ max_len`
    ///
    /// # Proved
    ///
    /// ```text
    /// ensures is { result ≡ (self.now.is_open && nat_lt max_len (length self.now.out + more)) }
    /// ensures in_place { self.now.is_separate ≡ false → result ≡ false }
    /// ```
    #[inline(always)]
    pub fn next_exceeds(&self, more: usize, max_len: usize) -> bool {
        debug_assert!(self.out_len() <= max_len);
        debug_assert!(self.len() <= max_len);
        self.is_separate && more > max_len - self.out_info.len()
    }

    /// How many glyphs were put out.
    ///
    /// # Proved
    ///
    /// ```text
    /// ensures is { result ≡ length self.now.out }
    /// ensures sides { IsSides self.now }
    /// ```
    #[inline(always)]
    pub fn out_len(&self) -> usize {
        if self.is_separate {
            self.out_info.len()
        } else {
            self.placed()
        }
    }

    /// How many glyphs were put out in place.
    ///
    /// # Requires
    ///
    /// - `self.now.is_separate ≡ false`
    #[inline(always)]
    fn placed(&self) -> usize {
        debug_assert!(!self.is_separate());
        if self.is_open {
            self.cursor - self.gap
        } else {
            0
        }
    }

    /// How many glyphs the input has, those before the cursor among them.
    ///
    /// # Proved
    ///
    /// ```text
    /// ensures is { result ≡ len self.now }
    /// ensures sides { IsSides self.now }
    /// ```
    #[inline(always)]
    pub fn len(&self) -> usize {
        self.info.len() - self.front
    }

    /// The cursor: how many glyphs were read.
    ///
    /// # Proved
    ///
    /// ```text
    /// ensures { result ≡ self.now.idx }
    /// ```
    #[inline(always)]
    pub fn idx(&self) -> usize {
        self.cursor - self.front
    }

    /// How many glyphs there are at the cursor and after it.
    ///
    /// # Proved
    ///
    /// ```text
    /// ensures { result ≡ lookahead_len self.now }
    /// ```
    #[inline(always)]
    pub fn lookahead_len(&self) -> usize {
        self.info.len() - self.cursor
    }

    /// Whether more was put out than was read: then the list becomes longer once the output is closed.
    ///
    /// # Proved
    ///
    /// ```text
    /// ensures is { result ≡ nat_lt self.now.idx (length self.now.out) }
    /// ensures in_place { self.now.is_separate ≡ false → result ≡ false }
    /// ```
    #[inline(always)]
    pub fn has_grown(&self) -> bool {
        self.is_separate && self.out_info.len() > self.idx()
    }

    /// The glyphs that were put out.
    ///
    /// # Proved
    ///
    /// ```text
    /// ensures { result.now ≡ self.now.out }
    /// ```
    #[inline(always)]
    pub fn out(&self) -> &[hb_glyph_info_t] {
        if self.is_separate {
            &self.out_info
        } else {
            &self.info[..self.placed()]
        }
    }

    /// The glyphs that are left to read; with no output open the whole list.
    ///
    /// # Proved
    ///
    /// ```text
    /// ensures is { result.now ≡ self.now.input }
    /// ensures sides { IsSides self.now }
    /// ```
    #[inline(always)]
    pub fn input(&self) -> &[hb_glyph_info_t] {
        if self.is_open {
            &self.info[self.cursor..]
        } else {
            &self.info
        }
    }

    /// The glyph at the cursor.
    ///
    /// # Requires
    ///
    /// An open output and that there is one.
    ///
    /// - `opened: self.now.is_open ≡ true`
    /// - `glyph: 0 < length self.now.input`
    ///
    /// # Proved
    ///
    /// ```text
    /// ensures { take 1 self.now.input ≡ result ∷ [] }
    /// ```
    #[inline(always)]
    pub fn head(&self) -> hb_glyph_info_t {
        debug_assert!(self.is_open());
        debug_assert!(!self.input().is_empty());
        self.info[self.cursor]
    }

    /// Moves the cursor.
    ///
    /// # Requires
    ///
    /// That no output is open, and a place of the list.
    ///
    /// - `closed: self.old.is_open ≡ false`
    /// - `within: i ≤ length self.old.input`
    ///
    /// # Proved
    ///
    /// ```text
    /// ensures { self.new ≡ record self.old { idx = i } }
    /// ```
    #[inline(always)]
    pub fn go_to(&mut self, i: usize) {
        debug_assert!(!self.is_open());
        debug_assert!(i <= self.input().len());
        self.cursor = i;
    }

    /// Both sides in one slice: with no output open the list; else what was put out at its start, and what
    /// is left to read from the cursor on.
    ///
    /// # Requires
    ///
    /// That the output is not separate.
    ///
    /// - `self.now.is_separate ≡ false`
    ///
    /// # Proved
    ///
    /// ```text
    /// ensures len { length result.now ≡ len self.now }
    /// ensures out { take (length self.now.out) result.now ≡ self.now.out }
    /// ensures input { (if self.now.is_open then drop self.now.idx result.now else result.now)
    ///     ≡ self.now.input }
    /// ```
    #[inline(always)]
    pub fn storage(&self) -> &[hb_glyph_info_t] {
        debug_assert!(!self.is_separate());
        self.info.as_slice()
    }

    /// Makes room for so many glyphs on each side.
    ///
    /// # Errors
    ///
    /// `Err(AllocError)` where memory ran out.
    ///
    /// # Proved
    ///
    /// ```text
    /// ensures done { OnOk result (self.new ≡ record self.old { room = max self.old.room size }) }
    /// ensures same { OnErr result (self.new ≡ self.old) }
    /// ensures wants { OnErr result (self.old.room < size) }
    /// ```
    #[inline]
    pub fn reserve(&mut self, size: usize) -> Result<(), AllocError> {
        if size > self.room {
            self.info.reserve(size.saturating_sub(self.info.len()))?;
            self.out_info
                .reserve(size.saturating_sub(self.out_info.len()))?;
            self.room = size;
        }
        Ok(())
    }

    /// Takes memory for so many more glyphs in the list, and changes nothing else: the room stays what it
    /// was promised to be. So a caller may take all memory for an operation before it begins.
    ///
    /// # Requires
    ///
    /// - `self.old.is_open ≡ false`
    ///
    /// # Errors
    ///
    /// `Err(AllocError)` where memory ran out.
    ///
    /// # Proved
    ///
    /// ```text
    /// ensures same { self.new ≡ self.old }
    /// ensures wants { OnErr result ((0 < more) × (self.old.room < length self.old.input + more)) }
    /// ```
    #[inline]
    pub fn reserve_more(&mut self, more: usize) -> Result<(), AllocError> {
        debug_assert!(!self.is_open());
        self.info.reserve(more)
    }

    /// How many glyphs each side may hold without asking for memory.
    ///
    /// # Proved
    ///
    /// ```text
    /// ensures is { result ≡ self.now.room }
    /// ensures sides { IsSides self.now }
    /// ```
    #[inline(always)]
    pub fn room(&self) -> usize {
        self.room
    }

    /// Puts a glyph at the end of the list.
    ///
    /// # Requires
    ///
    /// That no output is open.
    ///
    /// - `self.old.is_open ≡ false`
    ///
    /// # Errors
    ///
    /// `Err(AllocError)` where memory ran out.
    ///
    /// # Proved
    ///
    /// ```text
    /// ensures done { OnOk result (self.new ≡ record self.old { input = self.old.input ++ glyph ∷ [] }) }
    /// ensures same { OnErr result (self.new ≡ self.old) }
    /// ensures wants { OnErr result (self.old.room ≤ length self.old.input) }
    /// ```
    #[inline]
    pub fn push(&mut self, glyph: hb_glyph_info_t) -> Result<(), AllocError> {
        debug_assert!(!self.is_open());
        self.info.push(glyph)?;
        Ok(())
    }

    /// Keeps the first `n` glyphs of the list, and puts the cursor at its start.
    ///
    /// # Requires
    ///
    /// That no output is open.
    ///
    /// - `self.old.is_open ≡ false`
    ///
    /// # Proved
    ///
    /// ```text
    /// ensures { self.new ≡ record self.old { input = take n self.old.input; idx = 0 } }
    /// ```
    #[inline]
    pub fn truncate(&mut self, n: usize) {
        debug_assert!(!self.is_open());
        self.info.truncate(n);
        self.cursor = 0;
    }

    /// Where glyph `k` of the input, counted from its start, stands in both sides as one list. With an
    /// output open it is at the cursor or after it.
    ///
    /// # Requires
    ///
    /// - `from_cursor: self.now.is_open ≡ true → self.now.idx ≤ k`
    /// - `within: k ≤ len self.now`
    ///
    /// # Proved
    ///
    /// ```text
    /// ensures { result ≡ place k self.now }
    /// ```
    #[inline(always)]
    pub fn place(&self, k: usize) -> usize {
        debug_assert!(!self.is_open() || self.idx() <= k);
        debug_assert!(k <= self.len());
        if self.is_separate {
            return self.out_info.len() + (k + self.front - self.cursor);
        }
        if self.is_open {
            return k - self.gap;
        }
        k
    }

    /// Puts the glyphs of a text, which has so many characters, at the end of the list.
    ///
    /// # Requires
    ///
    /// That no output is open.
    ///
    /// - `closed: self.old.is_open ≡ false`
    /// - `count: count ≡ length (chars text.now)`
    ///
    /// # Errors
    ///
    /// `Err(AllocError)` where memory ran out.
    ///
    /// # Proved
    ///
    /// ```text
    /// ensures done { OnOk result (self.new ≡ record self.old {
    ///       input = self.old.input ++ glyphs_at 0 (chars text.now);
    ///     }) }
    /// ensures same { OnErr result (self.new ≡ self.old) }
    /// ensures wants { OnErr result ((0 < count) × (self.old.room < length self.old.input + count)) }
    /// ```
    #[inline]
    pub fn append(&mut self, text: &str, count: usize) -> Result<(), AllocError> {
        debug_assert!(!self.is_open());
        self.info.reserve(count)?;
        append_characters(&mut self.info, text);
        Ok(())
    }
}
