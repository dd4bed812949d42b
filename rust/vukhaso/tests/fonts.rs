//! Faces that are shared, and fonts of them. Glyphs and positions are those of HarfBuzz's `hb-shape`, as rows of `rows/shaping` have
//! them.

use vukhaso::{Face, FaceNames, Font, SerializeFlags, Tag, UnicodeBuffer, Variation, shape};

const VARIABLE: &[u8] = include_bytes!("../../../fonts/variable.ttf");
const TEXT: &str = "a\u{301}b\u{301}c";

/// At the default, at the weight 900, and there with an em of 500.
const PLAIN: &str = "a=0+535|acute=0@-335,200+0|b=2+530|acute=2@-320,150+0|c=4+555";
const BOLD: &str = "alt=0+705|acute=0+0|b=2+627|acute=2@-417,150+0|c=4+695";
const SMALL: &str = "alt=0+353|acute=0+0|b=2+314|acute=2@-209,75+0|c=4+348";

fn shaped(face: &Face) -> String {
    let mut text = UnicodeBuffer::new();
    for (cluster, character) in TEXT.chars().enumerate() {
        assert!(text.add(character, cluster as u32).unwrap());
    }
    let glyphs = shape(face, &[], text).unwrap();
    let names = FaceNames::new(face).unwrap();
    let text = glyphs.serialize(&names, SerializeFlags::empty()).unwrap();
    text.to_string()
}

fn weight(value: f32) -> Variation {
    Variation {
        tag: Tag::from_bytes(b"wght"),
        value,
    }
}

#[test]
fn a_font_has_its_own_size_and_variations() {
    let face = Face::parse(VARIABLE, 0).unwrap();
    let mut bold = Font::new(&face);
    bold.set_variations(&[weight(900.0)]).unwrap();
    let mut small = bold.clone();
    small.set_scale(500, 500);
    assert_eq!(
        [shaped(&face), shaped(&bold), shaped(&small)],
        [PLAIN, BOLD, SMALL]
    );
    let heavy = weight(900.0);
    small.set_scale(1000, 1000);
    small.set_named_instance(None).unwrap();
    assert_eq!(shaped(&small), PLAIN);
    small.set_variation(heavy.tag, heavy.value).unwrap();
    assert_eq!(shaped(&small), BOLD);
}

#[test]
fn a_font_has_its_own_pixels_and_points() {
    let face = Face::parse(VARIABLE, 0).unwrap();
    let mut font = Font::from(face.clone());
    font.set_pixels_per_em(20, 10);
    font.set_points_per_em(12.0);
    let pixels = |face: &Face| (face.scale.x_ppem, face.scale.y_ppem);
    assert_eq!((pixels(&font), font.points_per_em), ((20, 10), 12.0));
    assert_eq!((pixels(&face), face.points_per_em), ((0, 0), 0.0));
}

#[test]
fn clones_share_what_was_read() {
    let mut face = Face::parse(VARIABLE, 0).unwrap();
    face.set_variations(&[weight(900.0)]).unwrap();
    let other = face.clone();
    assert!(std::ptr::eq(&*face.lookups, &*other.lookups));
    drop(face);
    assert_eq!(shaped(&other), BOLD);
}

/// A face that is made where memory may run out is read again.
#[test]
fn a_face_that_is_not_counted_is_cloned() {
    let mut face = Face::parse_if_there(VARIABLE, 0).unwrap().unwrap();
    face.set_variations(&[weight(900.0)]).unwrap();
    face.set_scale(500, 500);
    assert_eq!(shaped(&face.clone()), SMALL);
}

#[test]
fn threads_share_a_face() {
    let face = Face::parse(VARIABLE, 0).unwrap();
    std::thread::scope(|threads| {
        for (value, expected) in [(900.0, BOLD), (400.0, PLAIN)] {
            let mut font = Font::new(&face);
            threads.spawn(move || {
                font.set_variation(Tag::from_bytes(b"wght"), value).unwrap();
                assert_eq!(shaped(&font), expected);
            });
        }
        threads.spawn(|| assert_eq!(shaped(&face), PLAIN));
    });
}
