// Written by tools/plain_rust from crates/ot_positioning. Do not edit.

//! A mark beside, under or over others, by the bounds of all and by the mark's combining class (Unicode Standard, "Combining Classes").

use crate::common::Direction;
use crate::glyph::GlyphExtents;

/// How far to the right a mark is moved: to the left side, to the right side or to the middle of these,
/// or between two bases.
pub(crate) fn across(
    class: u16,
    direction: Direction,
    base: &GlyphExtents,
    mark: &GlyphExtents,
) -> i32 {
    let way = way_across(class, direction, base.width, mark.width);
    base.x_bearing
        .wrapping_add(way)
        .wrapping_sub(mark.x_bearing)
}

/// From the left side of what a mark is put around to the left side of the mark, by the widths of both.
fn way_across(class: u16, direction: Direction, base: i32, mark: i32) -> i32 {
    if is_double(class) {
        double_across(direction, base, mark)
    } else if is_left(class) {
        0
    } else if is_right(class) {
        base.wrapping_sub(mark)
    } else {
        centred(base, mark)
    }
}

/// The same of a mark that stands between two letters.
fn double_across(direction: Direction, base: i32, mark: i32) -> i32 {
    match direction {
        Direction::LeftToRight => base.wrapping_sub(mark / 2),
        Direction::RightToLeft => (mark / 2).wrapping_neg(),
        Direction::TopToBottom | Direction::BottomToTop | Direction::Invalid => centred(base, mark),
    }
}

/// The same of a mark in the middle.
fn centred(base: i32, mark: i32) -> i32 {
    base.wrapping_sub(mark) / 2
}

/// Puts a mark under the marks so far, or over them. How far up it is moved.
pub(crate) fn stack_up(gap: i32, class: u16, stack: &mut GlyphExtents, mark: &GlyphExtents) -> i32 {
    if is_below(class) {
        leave_gap_below(gap, stack);
        put_below(gap, stack, mark)
    } else if is_attached_below(class) {
        put_below(gap, stack, mark)
    } else if is_above(class) {
        leave_gap_above(gap, stack);
        put_above(gap, stack, mark)
    } else if is_attached_above(class) {
        put_above(gap, stack, mark)
    } else {
        0
    }
}

/// Leaves a gap below marks.
fn leave_gap_below(gap: i32, stack: &mut GlyphExtents) {
    stack.height = stack.height.wrapping_sub(gap);
}

/// Leaves a gap above marks.
fn leave_gap_above(gap: i32, stack: &mut GlyphExtents) {
    stack.y_bearing = stack.y_bearing.wrapping_add(gap);
    stack.height = stack.height.wrapping_sub(gap);
}

/// Puts a mark below, which is never moved up. How far up it is moved.
fn put_below(gap: i32, stack: &mut GlyphExtents, mark: &GlyphExtents) -> i32 {
    let way = way_below(stack, mark);
    let kept = kept_down(gap, way);
    stack.height = height_with(stack.height, kept, mark.height);
    way.wrapping_sub(kept)
}

/// From the top of a mark up to the bottom of others.
fn way_below(stack: &GlyphExtents, mark: &GlyphExtents) -> i32 {
    let bottom = stack.y_bearing.wrapping_add(stack.height);
    bottom.wrapping_sub(mark.y_bearing)
}

/// Puts a mark above, which is moved down only by half of the way. How far up it is moved.
fn put_above(gap: i32, stack: &mut GlyphExtents, mark: &GlyphExtents) -> i32 {
    let way = way_above(stack, mark);
    let kept = kept_up(gap, way);
    stack.y_bearing = top_with(stack.y_bearing, kept, mark.height);
    stack.height = height_with(stack.height, kept, mark.height);
    way.wrapping_add(kept)
}

/// The height of marks with one more, which does not go so much of its way.
fn height_with(height: i32, kept: i32, mark: i32) -> i32 {
    height.wrapping_sub(kept).wrapping_add(mark)
}

/// The top of marks with one more above.
fn top_with(top: i32, kept: i32, mark: i32) -> i32 {
    top.wrapping_add(kept).wrapping_sub(mark)
}

/// From the bottom of a mark up to the top of others.
fn way_above(stack: &GlyphExtents, mark: &GlyphExtents) -> i32 {
    let bottom = mark.y_bearing.wrapping_add(mark.height);
    stack.y_bearing.wrapping_sub(bottom)
}

/// How much of its way a mark below does not go: all of it where it is up.
fn kept_down(gap: i32, way: i32) -> i32 {
    if is_up(gap, way) { way } else { 0 }
}

/// How much of its way down a mark above does not go.
fn kept_up(gap: i32, way: i32) -> i32 {
    if is_up(gap, way) {
        0
    } else {
        way.wrapping_neg() / 2
    }
}

/// Whether a way is up: the gap is negative where the font's scale upwards is.
fn is_up(gap: i32, way: i32) -> bool {
    if gap > 0 { way > 0 } else { way <= 0 }
}

/// Whether marks of a class stand between two letters.
fn is_double(class: u16) -> bool {
    class == 233 || class == 234
}

/// Whether they stand at the left side.
fn is_left(class: u16) -> bool {
    class == 200 || class == 218 || class == 228
}

/// Whether they stand at the right side.
fn is_right(class: u16) -> bool {
    class == 216 || class == 222 || class == 232
}

/// Whether they stand below, with a gap.
fn is_below(class: u16) -> bool {
    class == 218 || class == 220 || class == 222 || class == 233
}

/// Whether they are joined below.
fn is_attached_below(class: u16) -> bool {
    class == 200 || class == 202
}

/// Whether they stand above, with a gap.
fn is_above(class: u16) -> bool {
    class == 228 || class == 230 || class == 232 || class == 234
}

/// Whether they are joined above.
fn is_attached_above(class: u16) -> bool {
    class == 214 || class == 216
}
