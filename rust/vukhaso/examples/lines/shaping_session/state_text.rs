// Written by tools/plain_rust from crates/shaping_session. Do not edit.

//! What a buffer holds, as a line of text.

use vukhaso::internals::buffer::hb_buffer_t;
use vukhaso::internals::glyph::{glyph_flag, hb_glyph_info_t};
use vukhaso::memory::{AllocError, String};

/// # Errors
///
/// Whether an output is open, the cursor, whether no call was refused, what was put out, and what is
/// left to read. `Err(AllocError)` where memory ran out.
///
/// # Proved
///
/// ```text
/// ensures { IfOk result (λ text. string_bytes text ≡ state_text buffer.now) }
/// ```
#[inline]
pub fn print_state(buffer: &hb_buffer_t) -> Result<String, AllocError> {
    let head = print_head(buffer)?;
    let out = print_items(buffer.out_info())?;
    let input = print_items(buffer.info())?;
    Ok(String::format(format_args!(
        "{head} out=[{out}] in=[{input}]"
    ))?)
}

fn print_head(buffer: &hb_buffer_t) -> Result<String, AllocError> {
    let open = u8::from(buffer.have_output());
    let idx = buffer.idx();
    let ok = u8::from(buffer.successful());
    Ok(String::format(format_args!(
        "open={open} idx={idx} ok={ok}"
    ))?)
}

/// The glyphs, parted by spaces.
fn print_items(items: &[hb_glyph_info_t]) -> Result<String, AllocError> {
    let mut text = String::new();
    for (i, item) in items.iter().enumerate() {
        write_space(&mut text, i)?;
        write_item(&mut text, item)?;
    }
    Ok(text)
}

/// What stands before the glyph at a place.
fn write_space(text: &mut String, i: usize) -> Result<(), AllocError> {
    if i > 0 {
        text.push(' ')?;
    }
    Ok(())
}

/// The id of a glyph, its cluster and its glyph flags.
fn write_item(text: &mut String, item: &hb_glyph_info_t) -> Result<(), AllocError> {
    let id = item.glyph_id;
    let cluster = item.cluster;
    let flags = item.mask & glyph_flag::DEFINED;
    write!(text, "{id}:{cluster}:{flags}")
}
