//! The names of a face's glyphs, which are found once.

use crate::face::hb_face_t;
use std::collections::HashMap;
use vukhaso::{FaceNames, GlyphId, GlyphNames};

#[derive(Default)]
pub struct Names {
    names: Vec<Option<Box<[u8]>>>,
    glyphs: HashMap<Box<[u8]>, u32>,
}

impl Names {
    pub fn name(&self, glyph: u32) -> Option<&[u8]> {
        self.names.get(glyph as usize)?.as_deref()
    }

    pub fn glyph(&self, name: &[u8]) -> Option<u32> {
        self.glyphs.get(name).copied()
    }
}

impl hb_face_t {
    pub fn names(&self) -> &Names {
        self.names.get_or_init(|| {
            let mut found = Names::default();
            self.with_shaper(&self.plain_settings(), |face, _| {
                let Ok(names) = FaceNames::new(face) else {
                    return;
                };
                for glyph in 0..face.number_of_glyphs() {
                    let name: Option<Box<[u8]>> = names.glyph_name(GlyphId(glyph)).map(|name| name.as_bytes().into());
                    if let Some(name) = &name {
                        found.glyphs.entry(name.clone()).or_insert(glyph.into());
                    }
                    found.names.push(name);
                }
            });
            found
        })
    }
}
