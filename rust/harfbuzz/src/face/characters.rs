//! Which characters a face has.

use crate::face::hb_face_t;
use crate::map::hb_map_t;
use crate::set::hb_set_t;

mod table;

/// The sets of the characters of a face.
#[unsafe(no_mangle)]
pub unsafe extern "C" fn hb_face_collect_unicodes(face: *mut hb_face_t, set: *mut hb_set_t) {
    // SAFETY: HarfBuzz's terms: a face and a set that are alive.
    let (face, set) = unsafe { (&*face, &mut *set) };
    table::each(face, |character, _| set.add(character));
}

#[unsafe(no_mangle)]
pub unsafe extern "C" fn hb_face_collect_nominal_glyph_mapping(face: *mut hb_face_t, map: *mut hb_map_t, set: *mut hb_set_t) {
    // SAFETY: HarfBuzz's terms: a face and a map that are alive, and a set or null.
    let (face, map, mut set) = unsafe { (&*face, &mut *map, set.as_mut()) };
    table::each(face, |character, glyph| {
        map.set(character, glyph);
        if let Some(set) = &mut set {
            set.add(character);
        }
    });
}

#[unsafe(no_mangle)]
pub unsafe extern "C" fn hb_face_collect_variation_selectors(face: *mut hb_face_t, set: *mut hb_set_t) {
    // SAFETY: HarfBuzz's terms: a face and a set that are alive.
    let (face, set) = unsafe { (&*face, &mut *set) };
    table::selectors(face).for_each(|(selector, _, _)| set.add(selector));
}

#[unsafe(no_mangle)]
pub unsafe extern "C" fn hb_face_collect_variation_unicodes(face: *mut hb_face_t, selector: u32, set: *mut hb_set_t) {
    // SAFETY: HarfBuzz's terms: a face and a set that are alive.
    let (face, set) = unsafe { (&*face, &mut *set) };
    table::varied(face, selector, |character| set.add(character));
}
