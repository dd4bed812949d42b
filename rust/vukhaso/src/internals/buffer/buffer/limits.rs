// Written by tools/plain_rust from crates/shaping_buffer. Do not edit.

//! The limits that hold while a text is shaped, as HarfBuzz's `hb_buffer_t` sets them, room that is made ahead, and the
//! numbers of ligatures.

use super::hb_buffer_t;
use crate::glyph::HB_BUFFER_SCRATCH_FLAG_DEFAULT;

impl hb_buffer_t {
    /// While a text is shaped, each side may hold this many times its length.
    pub const MAX_LEN_FACTOR: usize = 64;

    /// While a text is shaped, each side may hold no fewer glyphs than these.
    pub const MAX_LEN_MIN: usize = 16384;

    /// A shaper may make this many operations for each glyph of the text.
    pub const MAX_OPS_FACTOR: i32 = 1024;

    /// A shaper may make no fewer operations than these.
    pub const MAX_OPS_MIN: i32 = 16384;

    /// Sets how many glyphs each side may hold.
    ///
    /// # Requires
    ///
    /// That no side holds more.
    ///
    /// - `input: len self.old ≤ max_len`
    /// - `out: length self.old.out ≤ max_len`
    ///
    /// # Proved
    ///
    /// ```text
    /// ensures is { self.new ≡ step.set_max_len max_len self.old }
    /// ensures keeps { KeepsClusters self.old self.new }
    /// ```
    #[inline]
    pub fn set_max_len(&mut self, max_len: usize) {
        debug_assert!(self.len() <= max_len);
        debug_assert!(self.out_len() <= max_len);
        self.max_len = max_len;
    }

    /// Begins to shape a text: its limits follow its length, and no ligature has a number, shaping has not
    /// failed, and nothing was seen of the text. A limit that would be too large a number stays.
    ///
    /// # Requires
    ///
    /// That no output is open.
    ///
    /// - `self.old.have_output ≡ false`
    ///
    /// # Proved
    ///
    /// ```text
    /// ensures is { self.new ≡ step.enter self.old }
    /// ensures keeps { KeepsClusters self.old self.new }
    /// ```
    #[inline]
    pub fn enter(&mut self) {
        debug_assert!(!self.have_output());
        let len = self.sides.len();
        self.serial = 0;
        self.shaping_failed = false;
        self.scratch_flags = HB_BUFFER_SCRATCH_FLAG_DEFAULT;
        if let Some(max_len) = len.checked_mul(Self::MAX_LEN_FACTOR) {
            self.max_len = max_len.max(Self::MAX_LEN_MIN);
        }
        if let Some(max_ops) = ops_for(len) {
            self.max_ops = max_ops;
        }
    }

    /// Ends the shaping of a text: its limits are those of a new buffer, or its length where that is more,
    /// and no ligature has a number.
    ///
    /// # Requires
    ///
    /// That no output is open.
    ///
    /// - `self.old.have_output ≡ false`
    ///
    /// # Proved
    ///
    /// ```text
    /// ensures is { self.new ≡ step.leave self.old }
    /// ensures keeps { KeepsClusters self.old self.new }
    /// ```
    #[inline]
    pub fn leave(&mut self) {
        debug_assert!(!self.have_output());
        self.serial = 0;
        self.max_len = Self::MAX_LEN_DEFAULT.max(self.sides.len());
        self.max_ops = Self::MAX_OPS_DEFAULT;
    }

    /// A number for a ligature, from 1 to 7: the low three bits of `serial`, which steps, past 255 to 1,
    /// until they are not 0.
    ///
    /// # Proved
    ///
    /// ```text
    /// ensures serial { self.new ≡ step.allocate_lig_id self.old }
    /// ensures keeps { KeepsClusters self.old self.new }
    /// ensures number { result ≡ self.new.serial % 8 }
    /// ensures some { 0 < result }
    /// ```
    #[inline]
    pub fn allocate_lig_id(&mut self) -> u8 {
        self.serial = next_serial(self.serial);
        if self.serial % 8 == 0 {
            self.serial = next_serial(self.serial);
        }
        self.serial % 8
    }
}

/// How many operations a shaper may make over so many glyphs, where that is no more than an `i32`
/// holds.
fn ops_for(len: usize) -> Option<i32> {
    let ops = i32::try_from(len)
        .ok()?
        .checked_mul(hb_buffer_t::MAX_OPS_FACTOR)?;
    Some(ops.max(hb_buffer_t::MAX_OPS_MIN))
}

/// The number after this one; 1 follows the last.
fn next_serial(serial: u8) -> u8 {
    serial.checked_add(1).unwrap_or(1)
}
