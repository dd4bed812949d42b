// Written by tools/plain_rust from crates/font_gvar. Do not edit.

//! Phantom points of glyphs: where their origins and advances stand (OpenType specification, "glyf - Glyph Data", "Phantom
//! Points").

use crate::common::GlyphId;
use crate::font_gvar::components::Components;
use crate::font_gvar::points::Point;
use crate::font_gvar::simple_outlines::point_count;
use crate::font_gvar::sources::GlyphSources;
use crate::font_gvar::tuple_deltas::TupleDeltas;
use crate::font_gvar::tuple_scalar::tuple_scalar;
use crate::font_gvar::tuples::{Tuple, Tuples};
use crate::outline_tables::glyf::{OutlineKind, outline_kind};

/// The phantom points of a glyph.
#[derive(Clone, Copy, Debug, Default)]
pub struct Phantoms {
    /// The origin in horizontal lines.
    pub left: Point,
    /// Where the next glyph of a horizontal line has its origin.
    pub right: Point,
    /// The origin in vertical lines.
    pub top: Point,
    /// Where the next glyph of a vertical line has its origin.
    pub bottom: Point,
}

impl Phantoms {
    /// Moves the point with this number, from 0 on; there are four.
    fn move_point(&mut self, number: u32, by: Point) {
        match number {
            0 => self.left = self.left.moved(by),
            1 => self.right = self.right.moved(by),
            2 => self.top = self.top.moved(by),
            3 => self.bottom = self.bottom.moved(by),
            _ => {}
        }
    }

    /// The points, each moved by one of others.
    fn moved(&self, by: &Phantoms) -> Phantoms {
        Phantoms {
            left: self.left.moved(by.left),
            right: self.right.moved(by.right),
            top: self.top.moved(by.top),
            bottom: self.bottom.moved(by.bottom),
        }
    }
}

/// How deep glyphs may be put together of others, as HarfBuzz allows.
pub(crate) const DEEPEST_GLYPH: u32 = 64;

/// How many glyphs one may be put together of, as HarfBuzz allows.
pub(crate) const MOST_GLYPHS: u32 = 2048;

/// The phantom points of a glyph at these coordinates. `None` where the font has no such glyph, or its
/// outline is broken.
///
/// # Proved
///
/// ```text
/// ensures { IsSome result → glyph.0 < sources.now.outlines.glyph_count }
/// ```
#[inline]
pub fn varied_phantoms(
    sources: &GlyphSources<'_>,
    glyph: GlyphId,
    coordinates: &[i32],
) -> Option<Phantoms> {
    let mut steps = MOST_GLYPHS;
    phantoms_of(sources, glyph, coordinates, DEEPEST_GLYPH, &mut steps)
}

/// The phantom points of a glyph, or of the component that it has them of.
fn phantoms_of(
    sources: &GlyphSources<'_>,
    glyph: GlyphId,
    coordinates: &[i32],
    depth: u32,
    steps: &mut u32,
) -> Option<Phantoms> {
    if *steps == 0 {
        return None;
    }
    *steps -= 1;
    let outline = sources.outline(glyph)?;
    let own = own_phantoms(sources, glyph, outline, coordinates)?;
    if !matches!(outline_kind(outline), OutlineKind::Composite) {
        return Some(own);
    }
    let mut phantoms = own;
    let mut components = Components::new(outline);
    for _ in outline {
        let Some(component) = components.next() else {
            break;
        };
        if component.gives_metrics() {
            if depth == 0 {
                return None;
            }
            phantoms = phantoms_of(sources, component.glyph?, coordinates, depth - 1, steps)?;
        }
    }
    Some(phantoms)
}

/// The phantom points of a glyph, by its own variations.
fn own_phantoms(
    sources: &GlyphSources<'_>,
    glyph: GlyphId,
    outline: &[u8],
    coordinates: &[i32],
) -> Option<Phantoms> {
    let count = match outline_kind(outline) {
        OutlineKind::Empty => 0,
        OutlineKind::Simple(contours) => point_count(outline, contours)?,
        OutlineKind::Composite => Components::new(outline).count(),
    };
    let mut varied = VariedPhantoms {
        phantoms: sources.phantoms(glyph, outline),
        deltas: Phantoms::default(),
        is_pending: false,
    };
    let broken = vary(sources, glyph, count, coordinates, &mut varied).is_none();
    Some(if broken {
        varied.phantoms
    } else {
        varied.finished()
    })
}

/// Phantom points, and by how much they are still to be moved.
#[derive(Clone, Copy, Debug)]
struct VariedPhantoms {
    phantoms: Phantoms,
    deltas: Phantoms,
    is_pending: bool,
}

impl VariedPhantoms {
    /// The points, with all that they are still to be moved by.
    fn finished(&self) -> Phantoms {
        if self.is_pending {
            self.phantoms.moved(&self.deltas)
        } else {
            self.phantoms
        }
    }

    /// Moves the points by all that they are still to be moved by.
    fn settle(&mut self) {
        self.phantoms = self.finished();
        self.deltas = Phantoms::default();
        self.is_pending = false;
    }

    /// Adds a tuple's deltas of phantom points, which stand behind so many points.
    fn add(&mut self, tuple: &Tuple<'_>, scalar: f32, count: u32) -> Option<()> {
        let deltas = TupleDeltas::new(tuple, count.saturating_add(4), count)?;
        self.add_deltas(deltas, scalar, count);
        Some(())
    }

    /// Adds deltas of points, where they are not for all points on those that are moved by all before.
    fn add_deltas(&mut self, mut deltas: TupleDeltas<'_>, scalar: f32, count: u32) {
        if !deltas.is_for_all {
            self.settle();
        }
        for _ in 0..deltas.left() {
            if let Some((point, delta)) = deltas.next() {
                if point >= count {
                    self.deltas.move_point(point - count, delta.times(scalar));
                }
            }
        }
        self.is_pending = true;
    }
}

/// Adds the deltas of all tuples of a glyph; `None` where one is broken, and those behind it are passed
/// over.
fn vary(
    sources: &GlyphSources<'_>,
    glyph: GlyphId,
    count: u32,
    coordinates: &[i32],
    varied: &mut VariedPhantoms,
) -> Option<()> {
    let data = sources.variations.data_of(glyph);
    if data.is_empty() {
        return Some(());
    }
    let Some(mut tuples) = Tuples::new(&sources.variations, data) else {
        return Some(());
    };
    for _ in data {
        let Some(tuple) = tuples.next() else {
            break;
        };
        let scalar = tuple_scalar(&sources.variations, &tuple, coordinates);
        if scalar != 0.0 {
            varied.add(&tuple, scalar, count)?;
        }
    }
    Some(())
}
