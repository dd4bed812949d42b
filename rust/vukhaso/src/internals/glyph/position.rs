// Written by tools/plain_rust from crates/rb_glyph. Do not edit.

//! Where a glyph is drawn.

use crate::glyph::fields::{read_field, write_field};
use crate::numbers::{ToSigned, ToUnsigned};

/// Where a glyph is drawn, in font units and relative to the current point.
#[derive(Clone, Copy, Debug, Default)]
#[repr(C)]
pub struct GlyphPosition {
    /// How far the line advances after this glyph in horizontal text.
    pub x_advance: i32,
    /// How far the line advances after this glyph in vertical text.
    pub y_advance: i32,
    /// How far the glyph is moved along the x axis. The line advances as if it were not.
    pub x_offset: i32,
    /// How far the glyph is moved along the y axis. The line advances as if it were not.
    pub y_offset: i32,
    /// The attachment chain in bits 0 to 15, and the attachment type in bits 16 to 23.
    pub var: u32,
}

impl GlyphPosition {
    /// How many places away the glyph stands that this one is attached to: negative before it, positive
    /// after it, and 0 where there is none.
    ///
    /// # Proved
    ///
    /// ```text
    /// ensures { result ≡ signed_of_field 16 (field self.now.var 0 16) }
    /// ```
    #[inline]
    pub fn attach_chain(&self) -> i16 {
        (read_field(self.var, 0, 16) as u16).to_signed()
    }

    /// Sets how many places away the glyph stands that this one is attached to.
    ///
    /// # Proved
    ///
    /// ```text
    /// ensures { self.new ≡ record self.old {
    ///       var = with_field self.old.var 0 16 (field_of_signed 16 n);
    ///     } }
    /// ```
    #[inline]
    pub fn set_attach_chain(&mut self, n: i16) {
        write_field(&mut self.var, 0, 16, n.to_unsigned() as u32);
    }

    /// The kind of the attachment, which says nothing where the chain is 0.
    ///
    /// # Proved
    ///
    /// ```text
    /// ensures { result ≡ field self.now.var 16 8 }
    /// ```
    #[inline]
    pub fn attach_type(&self) -> u8 {
        read_field(self.var, 16, 8) as u8
    }

    /// Sets the kind of the attachment.
    ///
    /// # Proved
    ///
    /// ```text
    /// ensures { self.new ≡ record self.old { var = with_field self.old.var 16 8 n } }
    /// ```
    #[inline]
    pub fn set_attach_type(&mut self, n: u8) {
        write_field(&mut self.var, 16, 8, n as u32);
    }
}
