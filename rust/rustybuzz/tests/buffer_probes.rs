//! Each type and call of the buffers of rustybuzz's front, of plans and of shaping, in one use: this file is compiled, and nothing in it is run.

#![allow(dead_code, unused)]

/// `UnicodeBuffer: Default+Debug`.
mod p40_unicodebuffer_default_debug {
    fn g<T: Default + core::fmt::Debug>() {}
    fn f() {
        g::<rustybuzz::UnicodeBuffer>()
    }
}

/// `UnicodeBuffer: Debug`.
mod p41_unicodebuffer_debug {
    fn g<T: core::fmt::Debug>() {}
    fn f() {
        g::<rustybuzz::UnicodeBuffer>()
    }
}

/// `UnicodeBuffer: Send+Sync`.
mod p42_unicodebuffer_send_sync {
    fn g<T: Send + Sync>() {}
    fn f() {
        g::<rustybuzz::UnicodeBuffer>()
    }
}

/// `UnicodeBuffer push_str/add/len`.
mod p43_unicodebuffer_push_str_add_len {
    fn f(b: &mut rustybuzz::UnicodeBuffer) -> usize {
        b.push_str("a");
        b.add('b', 1);
        b.set_pre_context("x");
        b.set_post_context("y");
        b.reset_clusters();
        b.len()
    }
}

/// `UnicodeBuffer::language() -> Option<Language>`.
mod p44_unicodebuffer_language_option_language {
    fn f(b: &rustybuzz::UnicodeBuffer) -> Option<rustybuzz::Language> {
        b.language()
    }
}

/// `UnicodeBuffer::set_language`.
mod p45_unicodebuffer_set_language {
    fn f(b: &mut rustybuzz::UnicodeBuffer, l: rustybuzz::Language) {
        b.set_language(l)
    }
}

/// `UnicodeBuffer::guess_segment_properties`.
mod p46_unicodebuffer_guess_segment_properties {
    fn f(b: &mut rustybuzz::UnicodeBuffer) {
        b.guess_segment_properties();
    }
}

/// `UnicodeBuffer::set_flags/flags`.
mod p47_unicodebuffer_set_flags_flags {
    fn f(b: &mut rustybuzz::UnicodeBuffer) -> rustybuzz::BufferFlags {
        b.set_flags(rustybuzz::BufferFlags::BEGINNING_OF_TEXT | rustybuzz::BufferFlags::VERIFY);
        b.flags()
    }
}

/// `UnicodeBuffer::set_not_found_variation_selector (0.20)`.
mod p48_unicodebuffer_set_not_found_variation_selector_0_20 {
    fn f(b: &mut rustybuzz::UnicodeBuffer) {
        b.set_not_found_variation_selector(3);
    }
}

/// `GlyphBuffer: Debug`.
mod p49_glyphbuffer_debug {
    fn g<T: core::fmt::Debug>() {}
    fn f() {
        g::<rustybuzz::GlyphBuffer>()
    }
}

/// `GlyphBuffer: Send+Sync`.
mod p50_glyphbuffer_send_sync {
    fn g<T: Send + Sync>() {}
    fn f() {
        g::<rustybuzz::GlyphBuffer>()
    }
}

/// `GlyphBuffer::glyph_infos/positions/clear`.
mod p51_glyphbuffer_glyph_infos_positions_clear {
    fn f(b: rustybuzz::GlyphBuffer) -> rustybuzz::UnicodeBuffer {
        for (i, p) in b.glyph_infos().iter().zip(b.glyph_positions()) {
            let _: (u32, u32, i32, i32, i32, i32) = (
                i.glyph_id,
                i.cluster,
                p.x_advance,
                p.y_advance,
                p.x_offset,
                p.y_offset,
            );
        }
        b.clear()
    }
}

/// `GlyphBuffer::serialize`.
mod p52_glyphbuffer_serialize {
    fn f(b: &rustybuzz::GlyphBuffer, x: &rustybuzz::Face) -> String {
        b.serialize(x, rustybuzz::SerializeFlags::default())
    }
}

/// `GlyphInfo::unsafe_to_break()`.
mod p53_glyphinfo_unsafe_to_break {
    fn f(b: &rustybuzz::GlyphInfo) -> bool {
        b.unsafe_to_break()
    }
}

/// `GlyphInfo: Copy+Debug+Default`.
mod p54_glyphinfo_copy_debug_default {
    fn g<T: Copy + core::fmt::Debug + Default>() {}
    fn f() {
        g::<rustybuzz::GlyphInfo>()
    }
}

/// `GlyphPosition: Copy+Debug+Default`.
mod p55_glyphposition_copy_debug_default {
    fn g<T: Copy + core::fmt::Debug + Default>() {}
    fn f() {
        g::<rustybuzz::GlyphPosition>()
    }
}

/// `ShapePlan::new`.
mod p56_shapeplan_new {
    fn f(x: &rustybuzz::Face, l: &rustybuzz::Language) -> rustybuzz::ShapePlan {
        rustybuzz::ShapePlan::new(
            x,
            rustybuzz::Direction::LeftToRight,
            Some(rustybuzz::script::LATIN),
            Some(l),
            &[],
        )
    }
}

/// `ShapePlan: Send+Sync`.
mod p57_shapeplan_send_sync {
    fn g<T: Send + Sync>() {}
    fn f() {
        g::<rustybuzz::ShapePlan>()
    }
}

/// `ShapePlan::direction/script`.
mod p58_shapeplan_direction_script {
    fn f(p: &rustybuzz::ShapePlan) -> (rustybuzz::Direction, Option<rustybuzz::Script>) {
        (p.direction(), p.script())
    }
}

/// `shape_with_plan`.
mod p59_shape_with_plan {
    fn f(
        x: &rustybuzz::Face,
        p: &rustybuzz::ShapePlan,
        b: rustybuzz::UnicodeBuffer,
    ) -> rustybuzz::GlyphBuffer {
        rustybuzz::shape_with_plan(x, p, b)
    }
}

/// `shape`.
mod p60_shape {
    fn f(x: &rustybuzz::Face, b: rustybuzz::UnicodeBuffer) -> rustybuzz::GlyphBuffer {
        rustybuzz::shape(x, &[], b)
    }
}

/// `BufferFlags bitflags API`.
mod p61_bufferflags_bitflags_api {
    fn f() -> u32 {
        let mut x = rustybuzz::BufferFlags::empty();
        x.insert(rustybuzz::BufferFlags::VERIFY);
        let _ = x.contains(rustybuzz::BufferFlags::VERIFY);
        let _ = rustybuzz::BufferFlags::from_bits_truncate(3);
        let _ = rustybuzz::BufferFlags::all();
        x.bits()
    }
}

/// `BufferFlags::empty() without trait import`.
mod p62_bufferflags_empty_without_trait_import {
    fn f() {
        let _ = rustybuzz::BufferFlags::empty();
    }
}

/// `BufferFlags::from_bits`.
mod p63_bufferflags_from_bits {
    fn f() -> Option<rustybuzz::BufferFlags> {
        rustybuzz::BufferFlags::from_bits(3)
    }
}

/// `BufferFlags operators`.
mod p64_bufferflags_operators {
    fn f(a: rustybuzz::BufferFlags, b: rustybuzz::BufferFlags) {
        let mut c = a | b;
        c |= a;
        c &= b;
        c -= a;
        let _ = c == b;
        c ^= a;
        let _ = !c;
    }
}

/// `BufferFlags: Default`.
mod p65_bufferflags_default {
    fn f() -> rustybuzz::BufferFlags {
        Default::default()
    }
}

/// `BufferFlags const use`.
mod p66_bufferflags_const_use {
    const X: rustybuzz::BufferFlags =
        rustybuzz::BufferFlags::BEGINNING_OF_TEXT.union(rustybuzz::BufferFlags::END_OF_TEXT);
}

/// `SerializeFlags consts`.
mod p67_serializeflags_consts {
    fn f() -> rustybuzz::SerializeFlags {
        let mut s = rustybuzz::SerializeFlags::default();
        s |= rustybuzz::SerializeFlags::NO_GLYPH_NAMES;
        s |= rustybuzz::SerializeFlags::GLYPH_EXTENTS;
        s
    }
}

/// `BufferClusterLevel variants exhaustive`.
mod p68_bufferclusterlevel_variants_exhaustive {
    fn f(l: rustybuzz::BufferClusterLevel) -> u8 {
        use rustybuzz::BufferClusterLevel::*;
        match l {
            MonotoneGraphemes => 0,
            MonotoneCharacters => 1,
            Characters => 2,
        }
    }
}

/// `BufferClusterLevel: Default+Hash`.
mod p69_bufferclusterlevel_default_hash {
    fn g<T: Copy + Default + core::hash::Hash + Eq>() {}
    fn f() {
        g::<rustybuzz::BufferClusterLevel>()
    }
}

/// `shape's Face outlives data (covariance)`.
mod p70_shape_s_face_outlives_data_covariance {
    fn f<'a: 'b, 'b>(x: rustybuzz::Face<'a>) -> rustybuzz::Face<'b> {
        x
    }
}
