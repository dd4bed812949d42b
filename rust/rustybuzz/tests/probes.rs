//! Each type and call of faces, features and properties of rustybuzz's front in one use: this file is compiled, and nothing in it is run.

#![allow(dead_code, unused)]

/// `use ttf_parser`.
mod p01_use_ttf_parser {
    pub use rustybuzz::ttf_parser as _t;
}

/// `Face::from_slice`.
mod p02_face_from_slice {
    fn f(d: &[u8]) {
        let _x: Option<rustybuzz::Face> = rustybuzz::Face::from_slice(d, 0);
    }
}

/// `Face::from_face`.
mod p03_face_from_face {
    fn f<'a>(d: rustybuzz::ttf_parser::Face<'a>) -> rustybuzz::Face<'a> {
        rustybuzz::Face::from_face(d)
    }
}

/// `Face: Deref<Target=ttf_parser::Face>`.
mod p04_face_deref_target_ttf_parser_face {
    fn f(d: &rustybuzz::Face) {
        let _: &rustybuzz::ttf_parser::Face = d;
    }
}

/// `Face: DerefMut`.
mod p05_face_derefmut {
    fn f(d: &mut rustybuzz::Face) {
        let _: &mut rustybuzz::ttf_parser::Face = &mut *d;
    }
}

/// `Face: AsRef<ttf_parser::Face>`.
mod p06_face_asref_ttf_parser_face {
    fn f(d: &rustybuzz::Face) {
        let _: &rustybuzz::ttf_parser::Face = d.as_ref();
    }
}

/// `Face: AsMut<ttf_parser::Face>`.
mod p07_face_asmut_ttf_parser_face {
    fn f(d: &mut rustybuzz::Face) {
        let _: &mut rustybuzz::ttf_parser::Face = d.as_mut();
    }
}

/// `Face: Clone`.
mod p08_face_clone {
    fn f(d: &rustybuzz::Face) {
        let _: rustybuzz::Face = d.clone();
    }
}

/// `Face: Send+Sync`.
mod p09_face_send_sync {
    fn g<T: Send + Sync>() {}
    fn f() {
        g::<rustybuzz::Face<'static>>()
    }
}

/// `Face::units_per_em -> i32`.
mod p10_face_units_per_em_i32 {
    fn f(d: &rustybuzz::Face) -> i32 {
        d.units_per_em()
    }
}

/// `Face::set_pixels_per_em(Option<(u16,u16)>)`.
mod p11_face_set_pixels_per_em_option_u16_u16 {
    fn f(d: &mut rustybuzz::Face) {
        d.set_pixels_per_em(Some((1u16, 1u16)));
    }
}

/// `Face::set_points_per_em(Option<f32>)`.
mod p12_face_set_points_per_em_option_f32 {
    fn f(d: &mut rustybuzz::Face) {
        d.set_points_per_em(Some(1.0f32));
    }
}

/// `Face::set_variations(&[Variation]) -> ()`.
mod p13_face_set_variations_variation {
    fn f(d: &mut rustybuzz::Face, v: &[rustybuzz::Variation]) {
        let () = d.set_variations(v);
    }
}

/// `Face.ascender() via Deref`.
mod p14_face_ascender_via_deref {
    fn f(d: &rustybuzz::Face) -> i16 {
        d.ascender()
    }
}

/// `Face.outline_glyph via Deref`.
mod p15_face_outline_glyph_via_deref {
    fn f(d: &rustybuzz::Face, b: &mut dyn rustybuzz::ttf_parser::OutlineBuilder) {
        let _ = d.outline_glyph(rustybuzz::ttf_parser::GlyphId(1), b);
    }
}

/// `Face.glyph_index(char) via Deref`.
mod p16_face_glyph_index_char_via_deref {
    fn f(d: &rustybuzz::Face) {
        let _: Option<rustybuzz::ttf_parser::GlyphId> = d.glyph_index('a');
    }
}

/// `Face.tables() via Deref`.
mod p17_face_tables_via_deref {
    fn f(d: &rustybuzz::Face) {
        let _ = d.tables().gsub;
    }
}

/// `Variation{tag,value}`.
mod p18_variation_tag_value {
    fn f(t: rustybuzz::ttf_parser::Tag) -> rustybuzz::Variation {
        rustybuzz::Variation { tag: t, value: 1.0 }
    }
}

/// `Variation: FromStr`.
mod p19_variation_fromstr {
    fn f() {
        let _: rustybuzz::Variation = "wght=700".parse().unwrap();
    }
}

/// `Variation: FromStr<Err=&'static str>`.
mod p20_variation_fromstr_err_static_str {
    fn f() -> Result<rustybuzz::Variation, &'static str> {
        "wght=700".parse()
    }
}

/// `Variation: Copy+Debug`.
mod p21_variation_copy_debug {
    fn g<T: Copy + core::fmt::Debug>() {}
    fn f() {
        g::<rustybuzz::Variation>()
    }
}

/// `Feature::new(ttf_parser::Tag,u32,RangeFull)`.
mod p22_feature_new_ttf_parser_tag_u32_rangefull {
    fn f(t: rustybuzz::ttf_parser::Tag) {
        let _ = rustybuzz::Feature::new(t, 1, ..);
    }
}

/// `Feature::new(_,_,Range)`.
mod p23_feature_new_range {
    fn f(t: rustybuzz::ttf_parser::Tag) {
        let _ = rustybuzz::Feature::new(t, 1, 2..5);
    }
}

/// `Feature fields pub`.
mod p24_feature_fields_pub {
    fn f(x: rustybuzz::Feature) -> (rustybuzz::ttf_parser::Tag, u32, u32, u32) {
        (x.tag, x.value, x.start, x.end)
    }
}

/// `Feature: FromStr`.
mod p25_feature_fromstr {
    fn f() -> Result<rustybuzz::Feature, &'static str> {
        "kern".parse()
    }
}

/// `Feature: Copy+Debug+PartialEq+Hash`.
mod p26_feature_copy_debug_partialeq_hash {
    fn g<T: Copy + core::fmt::Debug + PartialEq + core::hash::Hash>() {}
    fn f() {
        g::<rustybuzz::Feature>()
    }
}

/// `Direction variants`.
mod p27_direction_variants {
    fn f(d: rustybuzz::Direction) -> u8 {
        use rustybuzz::Direction::*;
        match d {
            Invalid => 0,
            LeftToRight => 1,
            RightToLeft => 2,
            TopToBottom => 3,
            BottomToTop => 4,
        }
    }
}

/// `Direction: FromStr<Err=&'static str>`.
mod p28_direction_fromstr_err_static_str {
    fn f() -> Result<rustybuzz::Direction, &'static str> {
        "ltr".parse()
    }
}

/// `Direction: Default+Hash+Copy+Debug+Eq`.
mod p29_direction_default_hash_copy_debug_eq {
    fn g<T: Copy + core::fmt::Debug + Eq + core::hash::Hash + Default>() {}
    fn f() {
        g::<rustybuzz::Direction>()
    }
}

/// `Language: FromStr<Err=&'static str>`.
mod p30_language_fromstr_err_static_str {
    fn f() -> Result<rustybuzz::Language, &'static str> {
        "en".parse()
    }
}

/// `Language::as_str`.
mod p31_language_as_str {
    fn f(l: &rustybuzz::Language) -> &str {
        l.as_str()
    }
}

/// `Language: Clone`.
mod p32_language_clone {
    fn f(l: &rustybuzz::Language) -> rustybuzz::Language {
        l.clone()
    }
}

/// `Language: Debug+Eq+Hash`.
mod p33_language_debug_eq_hash {
    fn g<T: core::fmt::Debug + Eq + core::hash::Hash>() {}
    fn f() {
        g::<rustybuzz::Language>()
    }
}

/// `Script::from_iso15924_tag(ttf_parser::Tag)`.
mod p34_script_from_iso15924_tag_ttf_parser_tag {
    fn f(t: rustybuzz::ttf_parser::Tag) -> Option<rustybuzz::Script> {
        rustybuzz::Script::from_iso15924_tag(t)
    }
}

/// `Script::tag -> ttf_parser::Tag`.
mod p35_script_tag_ttf_parser_tag {
    fn f(t: rustybuzz::Script) -> rustybuzz::ttf_parser::Tag {
        t.tag()
    }
}

/// `Script: FromStr<Err=&'static str>`.
mod p36_script_fromstr_err_static_str {
    fn f() -> Result<rustybuzz::Script, &'static str> {
        "Arab".parse()
    }
}

/// `Script: Copy+Eq+Hash+Debug`.
mod p37_script_copy_eq_hash_debug {
    fn g<T: Copy + core::fmt::Debug + Eq + core::hash::Hash>() {}
    fn f() {
        g::<rustybuzz::Script>()
    }
}

/// `script::ARABIC const`.
mod p38_script_arabic_const {
    const A: rustybuzz::Script = rustybuzz::script::ARABIC;
}

/// `script::TOTO etc`.
mod p39_script_toto_etc {
    pub const A: [rustybuzz::Script; 5] = [
        rustybuzz::script::TOTO,
        rustybuzz::script::KAWI,
        rustybuzz::script::MYANMAR_ZAWGYI,
        rustybuzz::script::UNKNOWN,
        rustybuzz::script::SCRIPT_MATH,
    ];
}
