// Written by tools/plain_rust from crates/ot_apply. Do not edit.

//! Which glyphs a text has, as far as a digest tells: it is of the glyphs as they then stand.

use crate::buffer::hb_buffer_t;
use crate::glyph_digests::Digest;
use crate::ot_gsub::Progress;
use crate::ot_map::Pause;

/// The digest of the glyphs of a buffer.
#[inline(always)]
pub(crate) fn digest_of(buffer: &hb_buffer_t) -> Digest {
    Digest::of_glyphs(buffer.info())
}

/// Sees which glyphs there are after a lookup, if it changed some.
#[inline(always)]
pub(crate) fn see_changes(buffer: &hb_buffer_t, glyphs: &mut Digest, progress: &mut Progress) {
    if !progress.has_changed {
        return;
    }
    progress.has_changed = false;
    *glyphs = digest_of(buffer);
}

/// Sees which glyphs there are after a pause, unless nothing was done there.
#[inline(always)]
pub(crate) fn see_after(
    buffer: &hb_buffer_t,
    pause: Pause,
    glyphs: &mut Digest,
    progress: &mut Progress,
) {
    match pause {
        Pause::Nothing => {}
        _ => {
            progress.has_changed = false;
            *glyphs = digest_of(buffer);
        }
    }
}
