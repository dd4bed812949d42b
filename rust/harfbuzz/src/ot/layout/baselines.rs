//! Baselines, and how far lines reach, by the table `BASE` (OpenType specification, "BASE - Baseline Table").

use crate::common::languages::hb_language_t;
use crate::font::functions::hb_font_extents_t;
use crate::font::hb_font_t;
use crate::ot::layout::{Records, correction};
use crate::ot::metrics;
use crate::ot::tags::last_tags;
use crate::sfnt::{at_16, at_32, i16_at, u16_at, u32_at};
use crate::types::{hb_bool_t, hb_direction_t, hb_position_t, hb_script_t, hb_tag_t, is_horizontal, put, tag};
use std::ffi::c_int;
use vukhaso::internals::font_variations::VariationStore;

const HANGING: hb_tag_t = tag(b"hang");
const ROMAN: hb_tag_t = tag(b"romn");
const IDEOGRAPHIC: hb_tag_t = tag(b"icfb");
const X_HEIGHT: hb_tag_t = tag(b"xhgt");

/// The scripts that hang from a line, each with a letter that does.
const HANGING_SCRIPTS: [(&[u8; 4], u32); 20] = [
    (b"Beng", 0x995),
    (b"Deva", 0x915),
    (b"Gujr", 0xA95),
    (b"Guru", 0xA15),
    (b"Tibt", 0xF40),
    (b"Limb", 0x1901),
    (b"Sylo", 0xA807),
    (b"Phag", 0xA840),
    (b"Mtei", 0xABC0),
    (b"Shrd", 0x11191),
    (b"Takr", 0x1168C),
    (b"Modi", 0x1160E),
    (b"Sidd", 0x11590),
    (b"Tirh", 0x1148F),
    (b"Marc", 0x11C72),
    (b"Newa", 0x1140E),
    (b"Soyo", 0x11A5C),
    (b"Zanb", 0x11A0B),
    (b"Dogr", 0x1180A),
    (b"Gong", 0x11D6C),
];

/// Nandinagari, whose letter stands behind the others.
const NANDINAGARI: (&[u8; 4], u32) = (b"Nand", 0x119B0);

/// The scripts that stand in squares.
const SQUARE_SCRIPTS: [&[u8; 4]; 8] = [b"Hang", b"Hani", b"Hira", b"Kana", b"Bopo", b"Tang", b"Nshu", b"Kits"];

/// A question of the table.
#[derive(Clone, Copy)]
struct Question<'a> {
    font: &'a hb_font_t,
    direction: hb_direction_t,
    script: hb_tag_t,
    language: hb_tag_t,
}

impl<'a> Question<'a> {
    fn table(&self) -> &'a [u8] {
        self.font.face().table(b"BASE")
    }

    fn axis(&self) -> &'a [u8] {
        at_16(self.table(), if is_horizontal(self.direction) { 4 } else { 6 })
    }

    /// What the table says of the script, or of the default.
    fn script(&self) -> &'a [u8] {
        let scripts = Records::new(at_16(self.axis(), 2), 0);
        let found = scripts.find(self.script).or_else(|| scripts.find(tag(b"DFLT")));
        found.map_or(&[], |index| scripts.table(index))
    }

    fn store(&self) -> VariationStore<'a> {
        let table = self.table();
        VariationStore::new(if u32_at(table, 0) >= 0x0001_0001 { at_32(table, 8) } else { &[] })
    }

    /// A coordinate at the font's size; `None` where there is none.
    fn coordinate(&self, table: &[u8]) -> Option<hb_position_t> {
        let across = !is_horizontal(self.direction);
        let number = i32::from(i16_at(table, 2));
        let scaled = if across { self.font.em_scale_x(number) } else { self.font.em_scale_y(number) };
        match u16_at(table, 0) {
            1 | 2 => Some(scaled),
            3 => Some(scaled + correction(self.font, table, 4, across, &self.store())),
            _ => None,
        }
    }

    fn baseline(&self, baseline: hb_tag_t) -> Option<hb_position_t> {
        let tags = at_16(self.axis(), 0);
        let count = usize::from(u16_at(tags, 0));
        let place = (0..count).find(|place| u32_at(tags, 2 + 4 * place) == baseline)?;
        let values = at_16(self.script(), 0);
        if place >= usize::from(u16_at(values, 2)) {
            return None;
        }
        self.coordinate(at_16(values, 4 + 2 * place))
    }

    /// The lowest and the highest place of lines; `None` where the table does not say it.
    fn reach(&self) -> Option<(hb_position_t, hb_position_t)> {
        let script = self.script();
        let languages = Records::new(script, 4);
        let default = at_16(script, 2);
        if default.is_empty() && languages.count == 0 {
            return None;
        }
        let found = languages.find(self.language).map_or(default, |index| languages.table(index));
        let place = |at| self.coordinate(at_16(found, at)).unwrap_or(0);
        Some((place(0), place(2)))
    }

    fn with_fallback(&self, baseline: hb_tag_t) -> hb_position_t {
        self.baseline(baseline).unwrap_or_else(|| self.synthesized(baseline))
    }

    /// How far an em reaches along the line's other axis.
    fn em(&self) -> i32 {
        let (x, y) = self.font.scale();
        if is_horizontal(self.direction) { y } else { x }
    }

    /// What stands for a baseline that the font does not say (CSS Inline Layout Module, "Synthesizing baselines").
    fn synthesized(&self, baseline: hb_tag_t) -> hb_position_t {
        let other = |name: &[u8; 4]| self.with_fallback(tag(name));
        match &baseline.to_be_bytes() {
            b"math" => self.minus_height().unwrap_or_else(|| metrics::with_fallback(self.font, X_HEIGHT) / 2),
            b"icft" => {
                let (top, bottom) = (other(b"idtp"), other(b"ideo"));
                top + (bottom - top) / 10
            }
            b"icfb" => {
                let (top, bottom) = (other(b"idtp"), other(b"ideo"));
                bottom + (top - bottom) / 10
            }
            b"idtp" => match self.baseline(tag(b"ideo")) {
                Some(bottom) => bottom + self.em(),
                None => self.font.extents_for(self.direction).ascender,
            },
            b"ideo" => match self.baseline(tag(b"idtp")) {
                Some(top) => top - self.em(),
                None => self.font.extents_for(self.direction).descender,
            },
            b"hang" => self.hanging_height().unwrap_or(self.em() * 6 / 10),
            b"Idce" => (other(b"idtp") + other(b"ideo")) / 2,
            b"Icfc" => (other(b"icft") + other(b"icfb")) / 2,
            _ => 0,
        }
    }

    /// The middle of the minus sign.
    fn minus_height(&self) -> Option<hb_position_t> {
        if !is_horizontal(self.direction) {
            return None;
        }
        let minus = self.font.nominal_glyph(0x2212).or_else(|| self.font.nominal_glyph('-'.into()))?;
        let extents = self.font.glyph_extents(minus)?;
        Some(extents.y_bearing + extents.height / 2)
    }

    /// The top of a letter that hangs from the line.
    fn hanging_height(&self) -> Option<hb_position_t> {
        if !is_horizontal(self.direction) {
            return None;
        }
        let mut letters = HANGING_SCRIPTS.iter().chain(std::iter::once(&NANDINAGARI));
        let (_, letter) = letters.find(|(name, _)| tag(name) == self.script)?;
        Some(self.font.glyph_extents(self.font.nominal_glyph(*letter)?)?.y_bearing)
    }
}

#[unsafe(no_mangle)]
pub extern "C" fn hb_ot_layout_get_horizontal_baseline_tag_for_script(script: hb_script_t) -> hb_tag_t {
    let name = script.to_be_bytes();
    if HANGING_SCRIPTS.iter().any(|(hanging, _)| **hanging == name) || *NANDINAGARI.0 == name {
        HANGING
    } else if SQUARE_SCRIPTS.iter().any(|square| **square == name) {
        IDEOGRAPHIC
    } else {
        ROMAN
    }
}

/// The calls that ask for baselines, by tags and by a script and a language.
macro_rules! baselines {
    ($($by_tags:ident $by_names:ident -> $answer:ty, $ask:expr;)*) => {
        $(
            #[unsafe(no_mangle)]
            pub unsafe extern "C" fn $by_tags(
                font: *mut hb_font_t,
                baseline: hb_tag_t,
                direction: hb_direction_t,
                script: hb_tag_t,
                language: hb_tag_t,
                place: *mut hb_position_t,
            ) -> $answer {
                // SAFETY: HarfBuzz's terms: a font that is alive, and a place or null.
                unsafe { $ask(&Question { font: &*font, direction, script, language }, baseline, place) }
            }

            #[unsafe(no_mangle)]
            pub unsafe extern "C" fn $by_names(
                font: *mut hb_font_t,
                baseline: hb_tag_t,
                direction: hb_direction_t,
                script: hb_script_t,
                language: hb_language_t,
                place: *mut hb_position_t,
            ) -> $answer {
                let (script, language) = last_tags(script, language);
                // SAFETY: the same terms.
                unsafe { $by_tags(font, baseline, direction, script, language, place) }
            }
        )*
    };
}

/// # Safety
///
/// `place` is null or a place.
unsafe fn put_baseline(question: &Question<'_>, baseline: hb_tag_t, place: *mut hb_position_t) -> hb_bool_t {
    match question.baseline(baseline) {
        Some(found) => {
            // SAFETY: the caller's word.
            unsafe { put(place, found) };
            1
        }
        None => 0,
    }
}

/// # Safety
///
/// `place` is null or a place.
unsafe fn put_with_fallback(question: &Question<'_>, baseline: hb_tag_t, place: *mut hb_position_t) {
    // SAFETY: the caller's word.
    unsafe { put(place, question.with_fallback(baseline)) }
}

baselines! {
    hb_ot_layout_get_baseline hb_ot_layout_get_baseline2 -> c_int, put_baseline;
    hb_ot_layout_get_baseline_with_fallback hb_ot_layout_get_baseline_with_fallback2 -> (), put_with_fallback;
}

#[unsafe(no_mangle)]
pub unsafe extern "C" fn hb_ot_layout_get_font_extents(
    font: *mut hb_font_t,
    direction: hb_direction_t,
    script: hb_tag_t,
    language: hb_tag_t,
    extents: *mut hb_font_extents_t,
) -> hb_bool_t {
    // SAFETY: HarfBuzz's terms: a font that is alive, and a place or null.
    let font = unsafe { &*font };
    let reach = Question { font, direction, script, language }.reach();
    let found = reach.map(|(descender, ascender)| hb_font_extents_t { ascender, descender, ..Default::default() });
    // SAFETY: as above.
    unsafe { put(extents, found.unwrap_or_else(|| font.extents_for(direction))) };
    found.is_some().into()
}

#[unsafe(no_mangle)]
pub unsafe extern "C" fn hb_ot_layout_get_font_extents2(
    font: *mut hb_font_t,
    direction: hb_direction_t,
    script: hb_script_t,
    language: hb_language_t,
    extents: *mut hb_font_extents_t,
) -> hb_bool_t {
    let (script, language) = last_tags(script, language);
    // SAFETY: the same terms.
    unsafe { hb_ot_layout_get_font_extents(font, direction, script, language, extents) }
}
