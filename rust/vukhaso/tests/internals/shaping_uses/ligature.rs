// Written by tools/plain_rust from crates/shaping_uses. Do not edit.

//! A ligature stands for each f that an i follows.

use vukhaso::internals::buffer::hb_buffer_t;
use vukhaso::memory::AllocError;

/// The ids of a text's characters, before a font gave them glyphs.
const LETTER_F: u32 = 0x66;

const LETTER_I: u32 = 0x69;

const LIGATURE_FI: u32 = 0xFB01;

/// Puts the ligature in place of each f and the i behind it. The pass stays in place, so it asks for no
/// memory and is always done.
///
/// # Requires
///
/// That no output is open and no refusal stands.
///
/// - `closed: buffer.old.have_output ≡ false`
/// - `successful: buffer.old.successful ≡ true`
///
/// # Errors
///
/// `Err(AllocError)` where memory ran out.
///
/// # Proved
///
/// ```text
/// ensures done { result ≡ Ok true }
/// ensures closed { buffer.new.have_output ≡ false }
/// ensures no_longer { length buffer.new.input ≤ length buffer.old.input }
/// ```
#[inline]
pub fn ligate(buffer: &mut hb_buffer_t) -> Result<bool, AllocError> {
    debug_assert!(!buffer.have_output());
    buffer.clear_output();
    while buffer.idx() < buffer.len() {
        if is_pair(buffer) {
            buffer.replace_glyphs(2, 1, &[LIGATURE_FI])?;
        } else {
            buffer.next_glyph()?;
        }
    }
    buffer.sync()
}

/// Whether f and i stand at the cursor.
fn is_pair(buffer: &hb_buffer_t) -> bool {
    buffer.lookahead_len() >= 2
        && buffer.cur(0).glyph_id == LETTER_F
        && buffer.cur(1).glyph_id == LETTER_I
}
