//! Worked rows: what rustybuzz's own tests ask of features and tags, and texts of glyphs by all flags.

use vukhaso::internals::text::{
    LanguageTable, NoComplexLanguages, ThreeTags, tags_from_script_and_language,
};
use vukhaso::{
    BufferFlags, Direction, Feature, GlyphBuffer, GlyphExtents, GlyphId, GlyphNames, GlyphPosition,
    Language, LanguageError, NoGlyphNames, Script, SerializeFlags, Tag, TagExt, UnicodeBuffer,
    script,
};

const MAX: u32 = u32::MAX;

fn feature(text: &str) -> Option<(u32, u32, u32)> {
    let feature = text.parse::<Feature>().ok()?;
    assert_eq!(feature.tag, Tag::from_bytes(b"kern"), "{text}");
    Some((feature.value, feature.start, feature.end))
}

#[test]
fn features() {
    for text in [
        "kern",
        "+kern",
        "kern=1",
        "kern[]",
        "kern[:]",
        "kern[:-1]",
        "kern=on",
        "kern=oN",
    ] {
        assert_eq!(feature(text), Some((1, 0, MAX)), "{text}");
    }
    for text in ["-kern", "kern=0", "kern=off", "kern=oFf"] {
        assert_eq!(feature(text), Some((0, 0, MAX)), "{text}");
    }
    for (text, wanted) in [
        ("kern=2", (2, 0, MAX)),
        ("kern[5:]", (1, 5, MAX)),
        ("kern[:5]", (1, 0, 5)),
        ("kern[3:5]", (1, 3, 5)),
        ("kern[3]", (1, 3, 4)),
        ("kern[3:5]=2", (2, 3, 5)),
        ("kern[3;5]=2", (2, 3, 5)),
        ("kern[-1]", (1, MAX, MAX)),
        ("'kern'", (1, 0, MAX)),
    ] {
        assert_eq!(feature(text), Some(wanted), "{text}");
    }
    for text in [
        "",
        "kern= 5",
        "kern[1] =5",
        "kern=",
        "kern[3",
        "'kern\"",
        "kerne",
        "kern\u{e9}",
    ] {
        assert_eq!(feature(text), None, "{text}");
    }
}

#[test]
fn tags_in_capitals() {
    for (small, capital) in [(b"abcd", b"ABCD"), (b"ABCD", b"ABCD"), (b"abc ", b"ABC ")] {
        assert_eq!(
            Tag::from_bytes(small).to_uppercase(),
            Tag::from_bytes(capital)
        );
    }
}

/// The tags of a script and a language, by a table of one row.
fn tags(script: Option<Script>, language: Option<&str>) -> (String, String) {
    let rows = [("en", Tag::from_bytes(b"ENG "))];
    let table = LanguageTable::new(&rows).expect("a table");
    let language = language.map(|text| text.parse::<Language>().expect("a language"));
    let (scripts, languages) =
        tags_from_script_and_language(script, language.as_ref(), &table, &NoComplexLanguages);
    let said = |tags: &ThreeTags| {
        let texts = tags
            .iter()
            .map(|tag| String::from_utf8(tag.to_bytes().to_vec()).expect("letters"));
        texts.collect::<Vec<_>>().join("|")
    };
    (said(&scripts), said(&languages))
}

#[test]
fn tags_of_scripts() {
    for code in [
        "Wwyz", "Zyyy", "Zinh", "Zzzz", "Arab", "Copt", "Kana", "Latn", "Mtei", "Mand",
    ] {
        let script = code.parse::<Script>().expect("a script");
        let small = code[..1].to_lowercase() + &code[1..];
        assert_eq!(tags(Some(script), None), (small, String::new()));
    }
    for (script, wanted) in [
        (script::LAO, "lao "),
        (script::YI, "yi  "),
        (script::NKO, "nko "),
        (script::VAI, "vai "),
        (script::HIRAGANA, "kana"),
        (script::BENGALI, "bng3|bng2|beng"),
        (script::DEVANAGARI, "dev3|dev2|deva"),
        (script::MYANMAR, "mym2|mymr"),
    ] {
        assert_eq!(tags(Some(script), None).0, wanted);
    }
}

#[test]
fn script_tags_by_language() {
    for language in ["en", "x-hbsc", "en-x-hbsc"] {
        assert_eq!(tags(None, Some(language)).0, "");
        assert_eq!(tags(Some(script::COPTIC), Some(language)).0, "copt");
    }
    for before in ["", "en-"] {
        for (tag, wanted) in [
            ("abc", "abc "),
            ("deva", "deva"),
            ("dev2", "dev2"),
            ("dev3", "dev3"),
        ] {
            let language = format!("{before}x-hbsc{tag}");
            assert_eq!(
                tags(Some(script::COPTIC), Some(&language)).0,
                wanted,
                "{language}"
            );
        }
        assert_eq!(
            tags(None, Some(&format!("{before}x-hbotpap0-hbsccopt"))).0,
            "copt"
        );
    }
}

#[test]
fn ot_tags() {
    for (language, wanted) in [
        ("abc", "ABC "),
        ("xyz", "XYZ "),
        ("xy", ""),
        ("asdf-asdf-wer-x-hbot-zxc", ""),
        ("x-hbotabcd", "ABCD"),
        ("asdf-asdf-wer-x-hbotabcd", "ABCD"),
        ("asdf-asdf-wer-x-hbotabc", "ABC "),
        ("en", "ENG "),
    ] {
        assert_eq!(tags(None, Some(language)).1, wanted, "{language}");
    }
    for before in [
        "asdf-asdf-wer-",
        "fa-",
        "fa-ir-",
        "zh-",
        "zh-cn-",
        "zh-xy-",
        "xyz-xy-",
    ] {
        assert_eq!(
            tags(None, Some(&format!("{before}x-hbotabc-zxc"))).1,
            "ABC ",
            "{before}"
        );
    }
    assert_eq!(
        tags(None, Some("x-hbsc5678-hbot1234")),
        ("5678".into(), "1234".into())
    );
    assert_eq!(
        tags(None, Some("en-x-hbscdflt")),
        ("DFLT".into(), "ENG ".into())
    );
}

#[test]
fn languages_and_directions() {
    assert_eq!(
        "zh-Hant".parse::<Language>().expect("a language").as_str(),
        "zh-hant"
    );
    assert_eq!("".parse::<Language>().err(), Some(LanguageError::Invalid));
    for (text, wanted) in [
        ("ltr", Direction::LeftToRight),
        ("RTL", Direction::RightToLeft),
        ("ttb", Direction::TopToBottom),
        ("b", Direction::BottomToTop),
    ] {
        assert_eq!(text.parse(), Ok(wanted));
    }
    assert_eq!("x".parse::<Direction>(), Err("invalid direction"));
    assert_eq!(
        Direction::from_script(script::HEBREW),
        Some(Direction::RightToLeft)
    );
    assert_eq!(Direction::from_script(script::RUNIC), None);
}

#[test]
fn properties_are_guessed() {
    let mut text = UnicodeBuffer::default();
    assert_eq!(text.push_str("1 \u{5e9}a"), Ok(true));
    text.guess_segment_properties();
    assert_eq!(
        (text.script(), text.direction()),
        (script::HEBREW, Direction::RightToLeft)
    );
}

#[test]
fn flags_have_operators() {
    let mut flags = BufferFlags::BEGINNING_OF_TEXT | BufferFlags::END_OF_TEXT;
    assert_eq!(flags & BufferFlags::END_OF_TEXT, BufferFlags::END_OF_TEXT);
    flags -= BufferFlags::END_OF_TEXT;
    assert_eq!(flags, BufferFlags::BEGINNING_OF_TEXT);
}

/// The lines of the README.
#[test]
fn two_letters_give_way_to_one_glyph() {
    let mut text = UnicodeBuffer::new();
    assert_eq!(text.push_str("fit"), Ok(true));
    let mut buffer = text.into_buffer();
    buffer.clear_output();
    assert_eq!(buffer.replace_glyphs(2, 1, &[64257]), Ok(true));
    assert_eq!(buffer.sync(), Ok(true));
    buffer.clear_positions();
    let said =
        GlyphBuffer::from_buffer(buffer).serialize(&NoGlyphNames, SerializeFlags::NO_GLYPH_NAMES);
    assert_eq!(said.unwrap(), "64257=0+0|116=2+0");
}

/// A font with one name.
struct Five;

impl GlyphNames for Five {
    fn glyph_name(&self, glyph: GlyphId) -> Option<&str> {
        (glyph.0 == 5).then_some("five")
    }

    fn glyph_extents(&self, glyph: GlyphId) -> Option<GlyphExtents> {
        (glyph.0 == 5).then_some(GlyphExtents {
            x_bearing: 1,
            y_bearing: -2,
            width: 3,
            height: -4,
        })
    }
}

/// Glyphs of these ids, clusters and flags, at these positions: advances, then offsets.
fn glyphs(rows: &[(u32, u32, u32, [i32; 4])]) -> GlyphBuffer {
    let mut text = UnicodeBuffer::new();
    for (_, cluster, _, _) in rows {
        assert_eq!(text.add('a', *cluster), Ok(true));
    }
    let mut buffer = text.into_buffer();
    for (glyph, (id, _, flags, _)) in buffer.info_slice_mut().iter_mut().zip(rows) {
        (glyph.glyph_id, glyph.mask) = (*id, *flags);
    }
    buffer.clear_positions();
    for (position, (_, _, _, [x_advance, y_advance, x_offset, y_offset])) in
        buffer.pos_mut().iter_mut().zip(rows)
    {
        *position = GlyphPosition {
            x_advance: *x_advance,
            y_advance: *y_advance,
            x_offset: *x_offset,
            y_offset: *y_offset,
            var: 0,
        };
    }
    GlyphBuffer::from_buffer(buffer)
}

#[test]
fn glyphs_are_serialized() {
    const MOST: i32 = i32::MAX;
    let far = glyphs(&[
        (1, 0, 0, [MOST, 0, 0, 0]),
        (2, 1, 0, [MOST, 0, 0, 0]),
        (3, 2, 0, [MOST, 0, 1, 0]),
    ]);
    let summed = SerializeFlags::NO_GLYPH_NAMES | SerializeFlags::NO_ADVANCES;
    assert_eq!(
        far.serialize(&NoGlyphNames, summed).unwrap(),
        "1=0|2=1@2147483647,0|3=2@4294967295,0"
    );
    let named = glyphs(&[(5, 0, 3, [10, -1, 2, 0]), (6, 0, 0, [0; 4])]);
    for (flags, wanted) in [
        (24, "five=0@2,0+10,-1#3<1,-2,3,-4>|gid6=0+0<0,0,0,0>"),
        (0, "five=0@2,0+10,-1|gid6=0+0"),
        (1, "five@2,0+10,-1|gid6+0"),
        (2, "five=0|gid6=0"),
        (4, "5=0@2,0+10,-1|6=0+0"),
        (7, "5|6"),
        (20, "5=0@2,0+10,-1#3|6=0+0"),
        (32, "five=0@2,0|gid6=0@10,-1"),
        (63, "5#3<1,-2,3,-4>|6<0,0,0,0>"),
    ] {
        let flags = SerializeFlags::from_bits_retain(flags);
        assert_eq!(named.serialize(&Five, flags).unwrap(), wanted, "{flags:?}");
    }
    let upright = glyphs(&[
        (7, 4_294_967_295, 0, [5, 0, 0, -3]),
        (8, 1, 0, [-5, MOST, 0, 0]),
    ]);
    let flags = SerializeFlags::NO_GLYPH_NAMES;
    assert_eq!(
        upright.serialize(&NoGlyphNames, flags).unwrap(),
        "7=4294967295@0,-3+5|8=1+-5,2147483647"
    );
}

/// With `debug_assertions` a call whose condition does not hold ends in a panic.
#[cfg(debug_assertions)]
mod conditions {
    use vukhaso::UnicodeBuffer;

    #[test]
    #[should_panic(expected = "0 < self.lookahead_len()")]
    fn of_next_glyph() {
        let _ = UnicodeBuffer::new().into_buffer().next_glyph();
    }

    #[test]
    #[should_panic(expected = "self.have_output()")]
    fn of_sync() {
        let _ = UnicodeBuffer::new().into_buffer().sync();
    }

    #[test]
    #[should_panic(expected = "start <= end")]
    fn of_merge_clusters() {
        UnicodeBuffer::new().into_buffer().merge_clusters(1, 0);
    }
}
