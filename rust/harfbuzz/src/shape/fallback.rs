//! The shaper that asks nothing of a font but its glyphs and their advances.

use crate::buffer::{GLYPHS, hb_buffer_t};
use crate::font::hb_font_t;
use crate::types::{is_backward, is_horizontal};
use vukhaso::CharExt;

pub fn shape(font: &hb_font_t, buffer: &mut hb_buffer_t) {
    let direction = buffer.properties.direction;
    let space = font.nominal_glyph(' '.into());
    buffer.clear_positions();
    for (info, position) in buffer.infos.iter_mut().zip(&mut buffer.positions) {
        info.mask = 0;
        let is_hidden = char::from_u32(info.codepoint).is_some_and(|c| c.is_default_ignorable());
        if let (true, Some(space)) = (is_hidden, space) {
            info.codepoint = space;
            continue;
        }
        info.codepoint = font.nominal_glyph(info.codepoint).unwrap_or(buffer.not_found);
        let glyph = info.codepoint;
        if is_horizontal(direction) {
            position.x_advance = font.h_advance(glyph);
        } else {
            position.y_advance = font.v_advance(glyph);
        }
        let origin = font.origin_for(glyph, direction);
        position.x_offset = -origin.0;
        position.y_offset = -origin.1;
    }
    if is_backward(direction) {
        buffer.infos.reverse();
        buffer.positions.reverse();
    }
    buffer.content_type = GLYPHS;
}
