// Written by tools/plain_rust from crates/ot_positioning. Do not edit.

//! Where marks stand around a base, by the bounds of both and by combining classes.

use crate::buffer::{GlyphPosition, hb_glyph_info_t};
use crate::common::Direction;
use crate::glyph::GlyphExtents;
use crate::ot_layout::ligature_parts::{ligature_component, ligature_id};
use crate::ot_positioning::mark_stack::{across, stack_up};
use crate::script_items::item::modified_combining_class;

/// A number that no combining class has.
const NO_CLASS: u16 = 255;

/// How a line runs.
#[derive(Clone, Copy, Debug)]
pub(crate) struct Line {
    /// The way in which the glyphs stand.
    pub direction: Direction,
    /// Whether the components of a ligature stand from left to right.
    pub components_run_right: bool,
    /// How far a mark stands from what it is put around.
    pub gap: i32,
}

/// A base with the marks that were put around it.
#[derive(Clone, Copy, Debug)]
pub(crate) struct Marks {
    line: Line,
    /// The base.
    base: GlyphExtents,
    /// The component of the base that marks are put around.
    component: GlyphExtents,
    /// That component with the marks of one class.
    stack: GlyphExtents,
    /// The number of the base as a ligature, and how many components it has.
    parts: (u8, u8),
    /// The component of the last mark; -1 before the first one.
    last_component: i32,
    /// The class of the last mark of the component.
    last_class: u16,
    /// How far it is from a mark back to the base.
    back: (i32, i32),
}

impl Marks {
    /// No marks, around a base that stands at a position. `parts` are the number of the base as a ligature
    /// and how many components it has.
    pub(crate) fn new(
        line: Line,
        base: GlyphExtents,
        position: &GlyphPosition,
        parts: (u8, u8),
    ) -> Self {
        Marks {
            line,
            base,
            component: base,
            stack: base,
            parts,
            last_component: -1,
            last_class: NO_CLASS,
            back: back_from(line.direction, position),
        }
    }

    /// Passes over an item that is no mark with a class.
    pub(crate) fn pass(&mut self, position: &GlyphPosition) {
        let direction = self.line.direction;
        let (x, y) = self.back;
        self.back = (
            farther(direction, x, position.x_advance),
            farther(direction, y, position.y_advance),
        );
    }

    /// Begins to put marks around what a mark with a class is put to, unless the last mark was put to it
    /// too.
    fn choose(&mut self, info: &hb_glyph_info_t) {
        self.choose_component(ligature_id(info), ligature_component(info));
        self.choose_class(modified_combining_class(info));
    }

    /// Takes the component of the base that a mark belongs to, by the mark's number of a ligature and of a
    /// component.
    fn choose_component(&mut self, ligature: u8, component: u8) {
        let parts = self.parts;
        if parts.1 < 2 {
            return;
        }
        self.take_component(component_of(parts, ligature, component));
    }

    /// Takes the component with this number.
    ///
    /// # Requires
    ///
    /// - `2 ≤ self.old.parts.1`
    fn take_component(&mut self, number: i32) {
        if self.last_component == number {
            return;
        }
        let (_, count) = self.parts;
        self.last_component = number;
        self.last_class = NO_CLASS;
        self.component = part_of(self.line.components_run_right, count, number, self.base);
    }

    /// Begins to put marks of a class around the component, unless the last mark was of this class too.
    fn choose_class(&mut self, class: u16) {
        if self.last_class == class {
            return;
        }
        self.last_class = class;
        self.stack = self.component;
    }

    /// Puts a mark with a class around the marks so far; a mark without bounds stays where it is.
    pub(crate) fn place(
        &mut self,
        info: &hb_glyph_info_t,
        bounds: Option<GlyphExtents>,
        position: &mut GlyphPosition,
    ) {
        self.choose(info);
        let back = self.back;
        self.put(modified_combining_class(info), bounds, position);
        move_back(position, back);
    }

    /// Moves a mark so far as it stands from the base, if it has bounds.
    fn put(&mut self, class: u16, mark: Option<GlyphExtents>, position: &mut GlyphPosition) {
        if let Some(mark) = mark {
            position.x_offset = across(class, self.line.direction, &self.stack, &mark);
            position.y_offset = stack_up(self.line.gap, class, &mut self.stack, &mark);
        }
    }
}

/// How far it is back to a base at this position.
fn back_from(direction: Direction, position: &GlyphPosition) -> (i32, i32) {
    if direction.is_forward() {
        (
            position.x_advance.wrapping_neg(),
            position.y_advance.wrapping_neg(),
        )
    } else {
        (0, 0)
    }
}

/// How far it is back to the base behind an item with this advance.
fn farther(direction: Direction, back: i32, advance: i32) -> i32 {
    if direction.is_forward() {
        back.wrapping_sub(advance)
    } else {
        back.wrapping_add(advance)
    }
}

/// The number of the component of a ligature that a mark belongs to, from 0 on. A mark of another
/// ligature, or of a component that this one does not have, belongs to the last one.
fn component_of(parts: (u8, u8), ligature: u8, component: u8) -> i32 {
    let (own, count) = parts;
    if own == 0 || own != ligature || component > count {
        i32::from(count) - 1
    } else {
        i32::from(component) - 1
    }
}

/// The part of a ligature's bounds that a component has, of so many.
///
/// # Requires
///
/// - `2 ≤ count`
fn part_of(run_right: bool, count: u8, number: i32, base: GlyphExtents) -> GlyphExtents {
    debug_assert!(2 <= count);
    let steps = steps_to(run_right, count, number);
    GlyphExtents {
        x_bearing: start_of(base.x_bearing, steps, base.width, count),
        width: share_of(base.width, count),
        ..base
    }
}

/// Where a component begins that so many stand on the left of.
///
/// # Requires
///
/// - `2 ≤ count`
fn start_of(start: i32, steps: i32, width: i32, count: u8) -> i32 {
    debug_assert!(2 <= count);
    start.wrapping_add(steps.wrapping_mul(width) / i32::from(count))
}

/// How wide a component is, of so many.
///
/// # Requires
///
/// - `2 ≤ count`
fn share_of(width: i32, count: u8) -> i32 {
    debug_assert!(2 <= count);
    width / i32::from(count)
}

/// How many components stand on the left of one.
fn steps_to(run_right: bool, count: u8, number: i32) -> i32 {
    if run_right {
        number
    } else {
        (i32::from(count) - 1).wrapping_sub(number)
    }
}

/// Moves a mark back to its base, and takes its advance.
fn move_back(position: &mut GlyphPosition, back: (i32, i32)) {
    position.x_advance = 0;
    position.y_advance = 0;
    position.x_offset = position.x_offset.wrapping_add(back.0);
    position.y_offset = position.y_offset.wrapping_add(back.1);
}
