//! What programs that use rustybuzz see.

use rustybuzz::ttf_parser::Tag;
use rustybuzz::{Face, Feature, Language, Script, SerializeFlags, UnicodeBuffer, Variation};

const FONT: &[u8] = include_bytes!("../../../fonts/letters.ttf");
const VARIABLE: &[u8] = include_bytes!("../../../fonts/variable.ttf");

fn shaped(face: &Face, text: &str) -> String {
    let mut buffer = UnicodeBuffer::new();
    buffer.push_str(text);
    rustybuzz::shape(face, &[], buffer).serialize(face, SerializeFlags::default())
}

#[test]
fn texts_are_shaped_as_the_program_shapes_them() {
    let face = Face::from_slice(FONT, 0).unwrap();
    assert_eq!(shaped(&face, "ab"), "a=0+410|b=1+420");
    assert_eq!(shaped(&face.clone(), "ab"), "a=0+410|b=1+420");
}

#[test]
fn extents_are_those_of_the_face() {
    let face = Face::from_slice(FONT, 0).unwrap();
    let mut buffer = UnicodeBuffer::new();
    buffer.push_str("ab");
    let glyphs = rustybuzz::shape(&face, &[], buffer);
    assert_eq!(
        glyphs.serialize(&face, SerializeFlags::GLYPH_EXTENTS),
        "a=0+410<21,409,360,-412>|b=1+420<22,412,370,-416>"
    );
}

/// Copies share a font, on other threads too, and what is chosen of one is not chosen of the others.
#[test]
fn what_is_chosen_of_a_copy_is_its_own() {
    fn is_shared<T: Clone + Send + Sync>(_: &T) {}
    let wght = |value| Variation {
        tag: Tag::from_bytes(b"wght"),
        value,
    };
    let face = Face::from_slice(VARIABLE, 0).unwrap();
    is_shared(&face);
    let plain = shaped(&face, "abc");
    let mut bold = face.clone();
    bold.set_variations(&[wght(900.0)]);
    let heavy = shaped(&bold, "abc");
    assert_ne!(heavy, plain);
    let mut copy = bold.clone();
    copy.set_pixels_per_em(Some((20, 20)));
    assert_eq!(shaped(&copy, "abc"), heavy);
    copy.set_variations(&[wght(400.0)]);
    for (face, text) in [(&face, &plain), (&bold, &heavy), (&copy, &plain)] {
        assert_eq!(&shaped(face, "abc"), text);
    }
}

/// The environment names a variable font.
#[test]
fn a_face_of_ttf_parser_is_taken_with_its_variations() {
    let Ok(path) = std::env::var("VUKHASO_VARIABLE_FONT") else {
        return;
    };
    let file = std::fs::read(path).unwrap();
    let mut parsed = rustybuzz::ttf_parser::Face::parse(&file, 0).unwrap();
    let axis = parsed.variation_axes().get(0).unwrap();
    let value = (axis.def_value + axis.max_value) / 2.0;
    parsed.set_variation(axis.tag, value).unwrap();
    let taken = Face::from_face(parsed);
    let mut set = Face::from_slice(&file, 0).unwrap();
    set.set_variations(&[Variation {
        tag: axis.tag,
        value,
    }]);
    assert_eq!(set.variation_coordinates(), taken.variation_coordinates());
    let text = "abcdefghijklmnopqrstuvwxyz";
    assert_eq!(shaped(&set, text), shaped(&taken, text));
    assert_eq!(shaped(&set.clone(), text), shaped(&set, text));
    assert_ne!(
        shaped(&Face::from_slice(&file, 0).unwrap(), text),
        shaped(&set, text)
    );
}

#[test]
fn variations_are_read_as_rustybuzz_reads_them() {
    for (text, read) in [
        ("wght=700", Some(("wght", 700.0))),
        (" 'wdth' = 1", None),
        ("'wdth'=-1.5 ", Some(("wdth", -1.5))),
        ("wght700", None),
        ("wght 700", None),
        ("wght=1e2", None),
        ("weight=1", None),
        ("wght", None),
        ("", None),
    ] {
        let variation = text.parse::<Variation>().ok();
        let expected = read.map(|(tag, value): (&str, f32)| Variation {
            tag: Tag::from_bytes_lossy(tag.as_bytes()),
            value,
        });
        assert_eq!(variation, expected, "{text}");
    }
    assert_eq!("".parse::<Variation>(), Err("invalid variation"));
}

#[test]
fn errors_are_rustybuzzs() {
    assert_eq!("".parse::<Language>(), Err("invalid language"));
    assert_eq!("".parse::<Script>(), Err("invalid script"));
    assert_eq!("1[".parse::<Feature>(), Err("invalid feature"));
    assert_eq!(
        "x".parse::<rustybuzz::Direction>(),
        Err("invalid direction")
    );
}

#[test]
fn features_have_their_ranges() {
    let tag = Tag::from_bytes(b"kern");
    let feature = Feature::new(tag, 0, 2..5);
    assert_eq!(
        (feature.tag, feature.value, feature.start, feature.end),
        (tag, 0, 2, 4)
    );
    let whole = Feature::new(tag, 1, ..);
    assert_eq!((whole.start, whole.end), (0, u32::MAX));
    assert_eq!(
        "kern[3:5]=0".parse(),
        Ok(Feature {
            tag,
            value: 0,
            start: 3,
            end: 5
        })
    );
}
