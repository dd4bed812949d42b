// Written by tools/plain_rust from crates/shaping_buffer. Do not edit.

//! The buffer: its fields, what contracts see of it, and its accessors.

use crate::buffer::cluster_level::{
    HB_BUFFER_CLUSTER_LEVEL_CHARACTERS, HB_BUFFER_CLUSTER_LEVEL_DEFAULT,
    HB_BUFFER_CLUSTER_LEVEL_GRAPHEMES, HB_BUFFER_CLUSTER_LEVEL_MONOTONE_CHARACTERS,
    hb_buffer_cluster_level_t,
};
use crate::glyph::{
    BufferFlags, GlyphPosition, HB_BUFFER_SCRATCH_FLAG_DEFAULT,
    HB_BUFFER_SCRATCH_FLAG_HAS_GLYPH_FLAGS, hb_buffer_scratch_flags_t, hb_glyph_info_t,
};
use crate::glyph_lists::cluster_order::ClusterOrder;
use crate::glyph_lists::context::Context;
use crate::glyph_sides::Sides;
use crate::memory::Vec;
use crate::text::{Direction, GlyphId, Language, Script};

mod cursor;
mod deletion;
mod glyph_flags;
mod groups;
mod growth;
mod limits;
mod masks;
mod merging;
mod moving;
mod places;
mod positions;
mod properties;
mod references;
mod replacement;

/// A text on its way through shaping: glyphs in reading order with a cursor, and while an output is open a second
/// list, the out side, that calls put glyphs into while they read the first.
///
/// # Proved
///
/// ```text
/// ghost Value = { State }
/// ghost view = { λ b. record {
///   have_output = b.sides.is_open;
///   have_separate_output = b.sides.is_separate;
///   out = b.sides.out;
///   input = b.sides.input;
///   idx = b.sides.idx;
///   successful = b.successful;
///   max_len = b.max_len;
///   room = b.sides.room;
///   positions = if b.have_positions then Some b.pos.items else None;
///   pre_context = b.pre_context.items;
///   post_context = b.post_context.items;
///   flags = b.flags;
///   cluster_level = b.cluster_level;
///   invisible = b.invisible;
///   not_found_variation_selector = b.not_found_variation_selector;
///   direction = b.direction;
///   script = b.script;
///   language = b.language;
///   shaping_failed = b.shaping_failed;
///   serial = b.serial;
///   scratch_flags = b.scratch_flags;
///   max_ops = b.max_ops;
/// } }
/// ghost invariant = { IsConsistent }
/// ```
#[derive(Debug)]
pub struct hb_buffer_t {
    /// How the text is to be treated.
    pub flags: BufferFlags,
    /// How far clusters are merged: a level of HarfBuzz's, where any number except 1, 2 and 3 acts as 0.
    pub cluster_level: hb_buffer_cluster_level_t,
    /// The glyph that stands for an invisible character, where the font's space does not.
    pub invisible: Option<GlyphId>,
    /// The glyph that stands for a variation selector that the font does not know.
    pub not_found_variation_selector: Option<u32>,
    /// The way in which the line runs.
    pub direction: Direction,
    /// The script of the text.
    pub script: Option<Script>,
    /// The language of the text.
    pub language: Option<Language>,
    /// Whether shaping met a limit.
    pub shaping_failed: bool,
    /// The last number that was given to a ligature.
    pub serial: u8,
    /// What was seen of the text, as flags that a shaper keeps for itself.
    pub scratch_flags: hb_buffer_scratch_flags_t,
    /// How many more operations a shaper may make.
    pub max_ops: i32,
    /// What was put out, and what is left to read.
    sides: Sides,
    pos: Vec<GlyphPosition>,
    have_positions: bool,
    successful: bool,
    max_len: usize,
    pre_context: Context,
    post_context: Context,
}

impl hb_buffer_t {
    /// The most glyphs that a side may hold, where nothing else is said.
    pub const MAX_LEN_DEFAULT: usize = 0x3FFF_FFFF;

    /// How many operations a shaper may make, where nothing else is said.
    pub const MAX_OPS_DEFAULT: i32 = 0x1FFF_FFFF;

    /// An empty buffer with the limits above, which takes its memory from `alloc` later.
    ///
    /// # Proved
    ///
    /// ```text
    /// ensures empty { result ≡ empty_state Self.MAX_LEN_DEFAULT Self.MAX_OPS_DEFAULT }
    /// ensures max_len { result.max_len ≡ 0x3FFF_FFFF }
    /// ensures max_ops { result.max_ops ≡ pos 0x1FFF_FFFF }
    /// ```
    #[inline]
    pub fn new() -> Self {
        hb_buffer_t {
            flags: BufferFlags::empty(),
            cluster_level: HB_BUFFER_CLUSTER_LEVEL_DEFAULT,
            invisible: None,
            not_found_variation_selector: None,
            direction: Direction::Invalid,
            script: None,
            language: None,
            shaping_failed: false,
            serial: 0,
            scratch_flags: HB_BUFFER_SCRATCH_FLAG_DEFAULT,
            max_ops: Self::MAX_OPS_DEFAULT,
            sides: Sides::new(),
            pos: Vec::new(),
            have_positions: false,
            successful: true,
            max_len: Self::MAX_LEN_DEFAULT,
            pre_context: Context::new(),
            post_context: Context::new(),
        }
    }

    /// How many glyphs the input has, those before the cursor among them.
    ///
    /// # Proved
    ///
    /// ```text
    /// ensures len { result ≡ len self.now }
    /// ensures within { len self.now ≤ self.now.max_len }
    /// ensures cursor { self.now.idx ≤ len self.now }
    /// ```
    #[inline]
    pub fn len(&self) -> usize {
        self.sides.len()
    }

    /// How many glyphs were put out: none while no output is open.
    ///
    /// # Proved
    ///
    /// ```text
    /// ensures out_len { result ≡ length self.now.out }
    /// ensures within { length self.now.out ≤ self.now.max_len }
    /// ensures closed { self.now.have_output ≡ false → self.now.out ≡ [] }
    /// ```
    #[inline]
    pub fn out_len(&self) -> usize {
        self.sides.out_len()
    }

    /// The cursor: how many glyphs of the input were read.
    ///
    /// # Proved
    ///
    /// ```text
    /// ensures { result ≡ self.now.idx }
    /// ```
    #[inline]
    pub fn idx(&self) -> usize {
        self.sides.idx()
    }

    /// How many glyphs each side may hold.
    ///
    /// # Proved
    ///
    /// ```text
    /// ensures { result ≡ self.now.max_len }
    /// ```
    #[inline]
    pub fn max_len(&self) -> usize {
        self.max_len
    }

    /// How many glyphs each side may hold without asking for memory: as many as a done `ensure` has made
    /// room for.
    ///
    /// # Proved
    ///
    /// ```text
    /// ensures { result ≡ self.now.room }
    /// ```
    #[inline]
    pub fn room(&self) -> usize {
        self.sides.room()
    }

    /// Whether no call was refused for length since the buffer was made or cleared.
    ///
    /// # Proved
    ///
    /// ```text
    /// ensures { result ≡ self.now.successful }
    /// ```
    #[inline]
    pub fn successful(&self) -> bool {
        self.successful
    }

    /// Whether an output is open.
    ///
    /// # Proved
    ///
    /// ```text
    /// ensures { result ≡ self.now.have_output }
    /// ```
    #[inline]
    pub fn have_output(&self) -> bool {
        self.sides.is_open()
    }

    /// Whether what was put out has left the storage of the input, as it does once it has more glyphs than
    /// were read. It comes back by `sync` and `clear`.
    ///
    /// # Proved
    ///
    /// ```text
    /// ensures is { result ≡ self.now.have_separate_output }
    /// ensures closed { self.now.have_output ≡ false → result ≡ false }
    /// ensures near { result ≡ false → length self.now.out ≤ self.now.idx }
    /// ```
    #[inline]
    pub fn have_separate_output(&self) -> bool {
        self.sides.is_separate()
    }

    /// Both sides in one slice: with no output open the list; else what was put out at its start, and what
    /// is left to read from the cursor on.
    ///
    /// # Requires
    ///
    /// That the output is not separate.
    ///
    /// - `self.now.have_separate_output ≡ false`
    ///
    /// # Proved
    ///
    /// ```text
    /// ensures { IsStorage self.now result.now }
    /// ```
    #[inline]
    pub fn storage(&self) -> &[hb_glyph_info_t] {
        debug_assert!(!self.have_separate_output());
        self.sides.storage()
    }

    /// Whether the glyphs have positions. While an output is open they have none.
    ///
    /// # Proved
    ///
    /// ```text
    /// ensures on { IsTrue result ↔ IsSome self.now.positions }
    /// ensures open { self.now.have_output ≡ true → self.now.positions ≡ None }
    /// ```
    #[inline]
    pub fn have_positions(&self) -> bool {
        self.have_positions
    }

    /// Whether the input has no glyph, before the cursor or after it.
    ///
    /// # Proved
    ///
    /// ```text
    /// ensures { IsTrue result ↔ (len self.now ≡ 0) }
    /// ```
    #[inline]
    pub fn is_empty(&self) -> bool {
        self.sides.len() == 0
    }

    /// The glyphs that are left to read; with no output open the whole list.
    ///
    /// # Proved
    ///
    /// ```text
    /// ensures { result.now ≡ self.now.input }
    /// ```
    #[inline]
    pub fn info(&self) -> &[hb_glyph_info_t] {
        self.sides.input()
    }

    /// The glyphs that were put out.
    ///
    /// # Proved
    ///
    /// ```text
    /// ensures { result.now ≡ self.now.out }
    /// ```
    #[inline]
    pub fn out_info(&self) -> &[hb_glyph_info_t] {
        self.sides.out()
    }

    /// How many glyphs stand before the cursor: those that were put out, or with no output open those
    /// before it.
    ///
    /// # Proved
    ///
    /// ```text
    /// ensures { result ≡ (if self.now.have_output then length self.now.out else self.now.idx) }
    /// ```
    #[inline]
    pub fn backtrack_len(&self) -> usize {
        if self.sides.is_open() {
            self.sides.out_len()
        } else {
            self.sides.idx()
        }
    }

    /// How many glyphs there are at the cursor and after it.
    ///
    /// # Proved
    ///
    /// ```text
    /// ensures { result ≡ lookahead_len self.now }
    /// ```
    #[inline]
    pub fn lookahead_len(&self) -> usize {
        self.sides.lookahead_len()
    }

    /// The characters next to the text, at most five, nearest first: before it (side 0) or after it (side
    /// 1).
    ///
    /// # Requires
    ///
    /// One of these sides.
    ///
    /// - `side < 2`
    ///
    /// # Proved
    ///
    /// ```text
    /// ensures side { result.now
    ///     ≡ (if side == 0 then self.now.pre_context else self.now.post_context) }
    /// ensures at_most_five { length result.now ≤ 5 }
    /// ```
    #[inline]
    pub fn context(&self, side: usize) -> &[char] {
        debug_assert!(side < 2);
        if side == 0 {
            return self.pre_context.as_slice();
        }
        self.post_context.as_slice()
    }

    /// Empties the buffer for the next text: both sides, the contexts and what was said of the text.
    /// `max_len`, `max_ops`, `flags`, `invisible`, `shaping_failed` and the room stay, and all else is as
    /// in a new buffer: no output, no positions, and `successful`.
    ///
    /// # Proved
    ///
    /// ```text
    /// ensures { self.new ≡ cleared self.old }
    /// ```
    #[inline]
    pub fn clear(&mut self) {
        self.sides.clear();
        self.pos.clear();
        self.have_positions = false;
        self.successful = true;
        self.pre_context.clear();
        self.post_context.clear();
        self.cluster_level = HB_BUFFER_CLUSTER_LEVEL_DEFAULT;
        self.not_found_variation_selector = None;
        self.direction = Direction::Invalid;
        self.script = None;
        self.language = None;
        self.serial = 0;
        self.scratch_flags = HB_BUFFER_SCRATCH_FLAG_DEFAULT;
    }

    /// The order in which clusters stand at the buffer's level.
    #[inline(always)]
    fn cluster_order(&self) -> ClusterOrder {
        match self.cluster_level {
            HB_BUFFER_CLUSTER_LEVEL_CHARACTERS | HB_BUFFER_CLUSTER_LEVEL_GRAPHEMES => {
                ClusterOrder::Any
            }
            _ => ClusterOrder::Monotone,
        }
    }

    /// Whether `merge_grapheme_clusters` makes a grapheme one cluster.
    fn groups_graphemes(&self) -> bool {
        self.cluster_level != HB_BUFFER_CLUSTER_LEVEL_MONOTONE_CHARACTERS
            && self.cluster_level != HB_BUFFER_CLUSTER_LEVEL_CHARACTERS
    }

    /// Says that there are glyph flags.
    #[inline(always)]
    fn set_has_glyph_flags(&mut self) {
        self.scratch_flags |= HB_BUFFER_SCRATCH_FLAG_HAS_GLYPH_FLAGS;
    }
}
