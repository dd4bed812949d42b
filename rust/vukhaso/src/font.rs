//! A face at a size. Faces are cloned for nothing: what was read of the file is shared.

use crate::common::Tag;
use crate::font_face::FaceVariations;
use crate::font_tables::directory::{Tables, face_count};
use crate::memory::{AllocError, Vec};
use crate::ot_shape::{Face, Variation};
use core::ops::Deref;

impl Clone for Face<'_> {
    /// A face of the same font, set as this one, which shares what was read of the file. It panics where memory runs out, as a
    /// copy of a `Vec` of std does.
    fn clone(&self) -> Self {
        let shared = self.lookups.again();
        Face {
            lookups: shared.unwrap_or_else(|| self.read_again().lookups),
            variations: FaceVariations {
                chosen: copied(&self.variations.chosen),
                coordinates: copied(&self.variations.coordinates),
                ..self.variations
            },
            ..*self
        }
    }
}

fn copied<T: Copy>(values: &[T]) -> Vec<T> {
    let mut copied = Vec::new();
    copied
        .extend_from_slice(values)
        .expect("there is memory for a copy");
    copied
}

impl<'a> Face<'a> {
    /// The font again: what is shared is not counted in a face that is made where memory may run out.
    fn read_again(&self) -> Face<'a> {
        let file = self.tables.file;
        let is_own = |index: &u32| {
            Tables::new(file, *index).is_some_and(|own| own.directory == self.tables.directory)
        };
        let index = (0..face_count(file)).find(is_own).unwrap_or(0);
        Face::parse(file, index).expect("a font that was read, and memory")
    }
}

/// A face at a size, with variations that are chosen: what texts are shaped with, in the place of a [`Face`]. HarfBuzz's name is
/// `hb_font_t`.
///
/// It shares what was read of the face, and changes nothing of it: there may be many fonts of one face, and fonts and faces may
/// go to other threads.
///
/// ```no_run
/// use vukhaso::{Face, Font, UnicodeBuffer, shape};
///
/// fn main() -> Result<(), Box<dyn std::error::Error>> {
///     let file = std::fs::read("/usr/share/fonts/truetype/dejavu/DejaVuSans.ttf")?;
///     let face = Face::parse(&file, 0)?;
///     let mut font = Font::new(&face);
///     font.set_scale(64 * 12, 64 * 12);
///     let mut text = UnicodeBuffer::new();
///     text.push_str("office")?;
///     println!("{} glyphs", shape(&font, &[], text)?.len());
///     Ok(())
/// }
/// ```
#[derive(Clone, Debug)]
pub struct Font<'a> {
    face: Face<'a>,
}

impl<'a> Font<'a> {
    /// A font of this face, set as the face is.
    pub fn new(face: &Face<'a>) -> Font<'a> {
        Font { face: face.clone() }
    }

    /// Says how long an em is across and upwards, as [`Face::set_scale`].
    pub fn set_scale(&mut self, x: i32, y: i32) {
        self.face.set_scale(x, y);
    }

    /// Says how many pixels an em has across and upwards, as [`Face::set_pixels_per_em`].
    pub fn set_pixels_per_em(&mut self, x: u16, y: u16) {
        self.face.set_pixels_per_em(x, y);
    }

    /// Says how many points an em has, as [`Face::set_points_per_em`].
    pub fn set_points_per_em(&mut self, points: f32) {
        self.face.set_points_per_em(points);
    }

    /// Chooses variations in place of those that were chosen before, as [`Face::set_variations`].
    ///
    /// # Errors
    ///
    /// [`AllocError`] where memory runs out: then nothing is changed.
    pub fn set_variations(&mut self, variations: &[Variation]) -> Result<(), AllocError> {
        self.face.set_variations(variations)
    }

    /// Chooses the value of one axis, as [`Face::set_variation`].
    ///
    /// # Errors
    ///
    /// [`AllocError`] where memory runs out: then nothing is changed.
    pub fn set_variation(&mut self, tag: Tag, value: f32) -> Result<(), AllocError> {
        self.face.set_variation(tag, value)
    }

    /// Chooses a named instance, or none, and no other variations, as [`Face::set_named_instance`].
    ///
    /// # Errors
    ///
    /// [`AllocError`] where memory runs out: then nothing is changed.
    pub fn set_named_instance(&mut self, instance: Option<u32>) -> Result<(), AllocError> {
        self.face.set_named_instance(instance)
    }
}

impl<'a> From<Face<'a>> for Font<'a> {
    fn from(face: Face<'a>) -> Self {
        Font { face }
    }
}

impl<'a> Deref for Font<'a> {
    type Target = Face<'a>;

    fn deref(&self) -> &Face<'a> {
        &self.face
    }
}
