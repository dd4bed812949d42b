// Written by tools/plain_rust from crates/shaping_bench. Do not edit.

//! Lists of glyphs on which passes and the serialized text are timed.

use crate::anyhow::bail;
use crate::shaping_bench::measuring::Item;
use crate::shaping_bench::pass::{Clusters, Pass};
use std::mem;
use vukhaso::internals::buffer::{GlyphBuffer, SerializeFlags, UnicodeBuffer, hb_buffer_t};
use vukhaso::internals::glyph::NoGlyphNames;

/// How many ids there are, from 1 on, before they begin again.
const IDS: usize = 30000;

/// A buffer that a pass goes over. It is used again from run to run.
#[derive(Debug)]
pub struct PassItem {
    pass: Pass,
    size: usize,
    buffer: hb_buffer_t,
}

impl PassItem {
    /// # Proved
    ///
    /// That it returns.
    #[inline]
    pub fn new(pass: Pass, size: usize) -> PassItem {
        PassItem {
            pass,
            size,

            buffer: hb_buffer_t::new(),
        }
    }
}

impl Item for PassItem {
    fn prepare(&mut self) -> crate::anyhow::Result<()> {
        let buffer = mem::replace(&mut self.buffer, hb_buffer_t::new());
        let characters = shaped(buffer)?.clear();
        self.buffer = filled(characters, self.size, self.pass.clusters())?;
        if self.pass.has_positions() && !self.buffer.have_output() {
            self.buffer.clear_positions();
        }
        Ok(())
    }

    fn run(&mut self) -> crate::anyhow::Result<u32> {
        if self.buffer.have_output() {
            bail!("a call was refused");
        }
        let Some(number) = self.pass.run(&mut self.buffer)? else {
            bail!("a call was refused");
        };
        Ok(low_bits(number).wrapping_add(last_id(&self.buffer)))
    }
}

/// A buffer of shaped glyphs that is written as a text.
#[derive(Debug)]
pub struct TextItem {
    buffer: GlyphBuffer,
    has_positions: bool,
}

impl TextItem {
    /// # Proved
    ///
    /// That it returns.
    #[inline]
    pub fn new(size: usize, has_positions: bool) -> crate::anyhow::Result<TextItem> {
        let buffer = filled(UnicodeBuffer::new(), size, Clusters::Single)?;
        Ok(TextItem {
            buffer: shaped(buffer)?,
            has_positions,
        })
    }
}

impl Item for TextItem {
    fn prepare(&mut self) -> crate::anyhow::Result<()> {
        Ok(())
    }

    fn run(&mut self) -> crate::anyhow::Result<u32> {
        let text = if self.has_positions {
            self.buffer
                .serialize(&NoGlyphNames, SerializeFlags::NO_GLYPH_NAMES)?
        } else {
            let flags = SerializeFlags::from_bits_retain(6);
            self.buffer.serialize(&NoGlyphNames, flags)?
        };
        Ok(low_bits(text.len()))
    }
}

/// The glyphs of a buffer, with positions.
///
/// # Proved
///
/// That it returns.
#[inline]
pub fn shaped(mut buffer: hb_buffer_t) -> crate::anyhow::Result<GlyphBuffer> {
    if buffer.have_output() {
        bail!("a call was refused");
    }
    buffer.clear_positions();
    Ok(GlyphBuffer::from_buffer(buffer))
}

/// The glyphs 1 to 30000 in turn, as many as asked for, as `push_str` would leave them.
fn filled(
    mut characters: UnicodeBuffer,
    size: usize,
    clusters: Clusters,
) -> crate::anyhow::Result<hb_buffer_t> {
    for i in 0..size {
        let id = char::from_u32((i % IDS) as u32 + 1).unwrap_or('?');
        if !characters.add(id, clusters.number(i, size))? {
            bail!("a character was refused");
        }
    }
    Ok(characters.into_buffer())
}

/// A number modulo 2^32.
///
/// # Proved
///
/// That it returns.
#[inline]
pub fn low_bits(number: usize) -> u32 {
    (number % 0x1_0000_0000) as u32
}

/// The id of the last glyph, or 0.
///
/// # Proved
///
/// That it returns.
#[inline]
pub fn last_id(buffer: &hb_buffer_t) -> u32 {
    buffer.info().last().map_or(0, |glyph| glyph.glyph_id)
}
