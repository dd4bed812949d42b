// Written by tools/plain_rust from crates/fault_tests. Do not edit.

//! Glyphs as a text, under each set of flags.

use crate::fault_tests::beginning::begun_buffer;
use crate::fault_tests::scenario::{Lost, Scenario};
use vukhaso::internals::buffer::{GlyphBuffer, SerializeFlags};
use vukhaso::internals::glyph::{GlyphExtents, GlyphNames};
use vukhaso::internals::text::GlyphId;
use vukhaso::memory::{AllocError, String, Vec};

/// A font that knows each glyph by one name.
struct Known;

///
/// # Proved
///
/// ```text
/// ghost name_of = { λ _ _. Some (codes "known") }
/// ghost extents_of = { λ _ _. Some (record { x_bearing = pos 1; y_bearing = pos 2; width = pos 3; height = pos 4 }) }
/// ```
impl GlyphNames for Known {
    fn glyph_name(&self, _glyph: GlyphId) -> Option<&str> {
        Some("known")
    }

    fn glyph_extents(&self, _glyph: GlyphId) -> Option<GlyphExtents> {
        Some(GlyphExtents {
            x_bearing: 1,
            y_bearing: 2,
            width: 3,
            height: 4,
        })
    }
}

/// `serialize` under each of the 64 sets of flags, with a font that has names and extents.
pub struct Written;

impl Scenario for Written {
    type Ready = (GlyphBuffer, Vec<String>);

    fn name(&self) -> &str {
        "serialize under each set of flags"
    }

    fn least(&self) -> u32 {
        64
    }

    fn prepare(&self) -> Result<(GlyphBuffer, Vec<String>), Lost> {
        let glyphs = glyphs()?;
        let mut texts = Vec::new();
        for bits in 0..64 {
            texts.push(write(&glyphs, bits)?)?;
        }
        Ok((glyphs, texts))
    }

    fn watch(&self, ready: (GlyphBuffer, Vec<String>)) -> Result<(), Lost> {
        let (glyphs, texts) = ready;
        for (bits, wanted) in (0u8..64).zip(texts.iter()) {
            let written = match write(&glyphs, bits) {
                Ok(written) => written,
                Err(_) => write(&glyphs, bits)?,
            };
            if written.as_str() != wanted.as_str() {
                return Err(Lost::State);
            }
        }
        Ok(())
    }
}

/// Glyphs with positions of their own.
fn glyphs() -> Result<GlyphBuffer, Lost> {
    let mut buffer = begun_buffer("abcdefgh", 0)?;
    if buffer.have_output() {
        return Err(Lost::Refusal);
    }
    buffer.clear_positions();
    for (i, position) in (1i32..).zip(buffer.pos_mut().iter_mut()) {
        position.x_advance = i;
        position.y_offset = i.wrapping_neg();
    }
    if buffer.have_output() || !buffer.have_positions() {
        return Err(Lost::Refusal);
    }
    Ok(GlyphBuffer::from_buffer(buffer))
}

fn write(glyphs: &GlyphBuffer, bits: u8) -> Result<String, Lost> {
    let flags = SerializeFlags::from_bits_retain(bits);
    Ok(glyphs.serialize(&Known, flags)?)
}
