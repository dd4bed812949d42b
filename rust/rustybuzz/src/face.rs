//! Fonts.

use crate::Variation;
use alloc::sync::Arc;
use alloc::vec::Vec;
use core::ops::{Deref, DerefMut};
use ttf_parser::{NormalizedCoordinate, RawFace, VariationAxis};

/// A font, as it is read by `ttf-parser` and as it is shaped with. A copy shares what is read.
#[derive(Clone)]
pub struct Face<'a> {
    parsed: ttf_parser::Face<'a>,
    pub(crate) shaped: Arc<vukhaso::rustybuzz::Face<'a>>,
}

impl<'a> Face<'a> {
    /// The font with this number in a file; `None` where the file has no such font.
    pub fn from_slice(data: &'a [u8], index: u32) -> Option<Self> {
        Self::of(ttf_parser::Face::parse(data, index).ok()?, data, index)
    }

    /// The font that `ttf-parser` has read from a file, with the variations that are chosen in it.
    ///
    /// It panics where the font was made of tables that stand in no file.
    pub fn from_face(face: ttf_parser::Face<'a>) -> Self {
        let data = face.raw_face().data;
        let coordinates = face.variation_coordinates().to_vec();
        let index = number_in(data, face.raw_face());
        let Some(mut made) = Self::of(face, data, index) else {
            panic!("a font that ttf-parser has read from a file");
        };
        made.take_coordinates(&coordinates);
        made
    }

    fn of(parsed: ttf_parser::Face<'a>, data: &'a [u8], index: u32) -> Option<Self> {
        Some(Face {
            parsed,
            shaped: Arc::new(vukhaso::rustybuzz::Face::from_slice(data, index)?),
        })
    }

    /// What is shaped with, of this face alone.
    fn own(&mut self) -> &mut vukhaso::rustybuzz::Face<'a> {
        Arc::make_mut(&mut self.shaped)
    }

    /// How many units an em has.
    pub fn units_per_em(&self) -> i32 {
        i32::from(self.shaped.units_per_em())
    }

    /// Says how many pixels an em has across and upwards, or that it is not drawn in pixels.
    pub fn set_pixels_per_em(&mut self, pixels: Option<(u16, u16)>) {
        let (x, y) = pixels.unwrap_or_default();
        self.own().set_pixels_per_em(x, y);
    }

    /// Says how many points an em has, by which glyphs stand closer or farther apart, or that it is not known.
    pub fn set_points_per_em(&mut self, points: Option<f32>) {
        self.own().set_points_per_em(points.unwrap_or_default());
    }

    /// Chooses values of axes, and leaves other axes as they are.
    pub fn set_variations(&mut self, variations: &[Variation]) {
        for variation in variations {
            let _is_known = self.parsed.set_variation(variation.tag, variation.value);
        }
        self.choose(variations);
    }

    /// Chooses values for shaping.
    fn choose(&mut self, variations: &[Variation]) {
        for variation in variations {
            let tag = vukhaso::Tag(variation.tag.0);
            if self.own().set_variation(tag, variation.value).is_err() {
                panic!("out of memory");
            }
        }
    }

    /// Chooses the values for shaping that these coordinates stand for.
    fn take_coordinates(&mut self, coordinates: &[NormalizedCoordinate]) {
        if coordinates.iter().all(|coordinate| coordinate.get() == 0) {
            return;
        }
        let axes = self.parsed.variation_axes();
        let mut maps = self
            .parsed
            .tables()
            .avar
            .map(|avar| avar.segment_maps.into_iter());
        let mut variations = Vec::new();
        for (axis, coordinate) in axes.into_iter().zip(coordinates) {
            let map = maps.as_mut().and_then(Iterator::next);
            let unmapped = match map {
                Some(map) => {
                    let rows = map
                        .into_iter()
                        .map(|row| (row.to_coordinate, row.from_coordinate));
                    interpolated(rows, coordinate.get())
                }
                None => f32::from(coordinate.get()),
            };
            variations.push(Variation {
                tag: axis.tag,
                value: value_of(&axis, unmapped / 16384.0),
            });
        }
        self.choose(&variations);
    }
}

/// The value of an axis at a coordinate from -1 to 1.
fn value_of(axis: &VariationAxis, coordinate: f32) -> f32 {
    let end = if coordinate < 0.0 {
        axis.def_value - axis.min_value
    } else {
        axis.max_value - axis.def_value
    };
    axis.def_value + coordinate * end
}

/// What rows of pairs, which rise, give at a place between two of them.
fn interpolated(rows: impl Iterator<Item = (i16, i16)>, place: i16) -> f32 {
    let mut last: Option<(i16, i16)> = None;
    for (from, to) in rows {
        if from >= place {
            let Some((before_from, before_to)) = last.filter(|_| from > place) else {
                return f32::from(to);
            };
            let part = (f32::from(place) - f32::from(before_from))
                / (f32::from(from) - f32::from(before_from));
            return f32::from(before_to) + part * (f32::from(to) - f32::from(before_to));
        }
        last = Some((from, to));
    }
    last.map_or(f32::from(place), |(_, to)| f32::from(to))
}

/// The number of a font in its file, by its tables.
fn number_in(data: &[u8], face: &RawFace<'_>) -> u32 {
    let tables = |face: &RawFace<'_>| -> Vec<(u32, u32)> {
        let rows = face.table_records.into_iter();
        rows.map(|table| (table.tag.0, table.offset)).collect()
    };
    let own = tables(face);
    (0..ttf_parser::fonts_in_collection(data).unwrap_or(1))
        .find(|index| RawFace::parse(data, *index).is_ok_and(|other| tables(&other) == own))
        .unwrap_or(0)
}

impl<'a> Deref for Face<'a> {
    type Target = ttf_parser::Face<'a>;

    fn deref(&self) -> &Self::Target {
        &self.parsed
    }
}

impl DerefMut for Face<'_> {
    fn deref_mut(&mut self) -> &mut Self::Target {
        &mut self.parsed
    }
}

impl<'a> AsRef<ttf_parser::Face<'a>> for Face<'a> {
    fn as_ref(&self) -> &ttf_parser::Face<'a> {
        &self.parsed
    }
}

impl<'a> AsMut<ttf_parser::Face<'a>> for Face<'a> {
    fn as_mut(&mut self) -> &mut ttf_parser::Face<'a> {
        &mut self.parsed
    }
}
