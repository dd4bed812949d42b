//! How programs that use rustybuzz call it, each in the way of a kind of program. The numbers are those of HarfBuzz's `hb-shape`.

use rustybuzz::ttf_parser::{self, GlyphId, Tag};
use rustybuzz::{BufferClusterLevel, BufferFlags, Direction, Face, Feature, GlyphBuffer};
use rustybuzz::{Language, Script, SerializeFlags, ShapePlan, UnicodeBuffer, Variation};
use std::collections::HashMap;
use std::str::FromStr;
use std::sync::Arc;

const LETTERS: &[u8] = include_bytes!("../../../fonts/letters.ttf");
const ARABIC: &[u8] = include_bytes!("../../../fonts/arabic.ttf");
const VARIABLE: &[u8] = include_bytes!("../../../fonts/variable.ttf");

/// A layout of lines for editors and windows: a font that threads share, a buffer that is used again, a plan for each run.
mod lines_of_a_window {
    use super::*;

    struct Font {
        face: Face<'static>,
        em_width: Option<f32>,
        scripts: Vec<[u8; 4]>,
        characters: Vec<u32>,
    }

    fn font(data: &'static [u8]) -> Option<Arc<Font>> {
        let parsed = ttf_parser::Face::parse(data, 0).ok()?;
        let space = parsed.glyph_hor_advance(parsed.glyph_index(' ')?)?;
        let tables = parsed.tables();
        let scripts = tables.gpos.into_iter().chain(tables.gsub);
        let scripts = scripts.flat_map(|table| table.scripts);
        let mut characters = Vec::new();
        for subtable in tables.cmap?.subtables {
            if subtable.is_unicode() {
                subtable.codepoints(|code| characters.push(code));
            }
        }
        Some(Arc::new(Font {
            em_width: Some(f32::from(space) / f32::from(parsed.units_per_em())),
            scripts: scripts.map(|script| script.tag.to_bytes()).collect(),
            characters,
            face: Face::from_slice(data, 0)?,
        }))
    }

    #[derive(Default)]
    struct Scratch {
        buffer: Option<UnicodeBuffer>,
    }

    struct Glyph {
        start: usize,
        id: u16,
        advance: f32,
    }

    fn shape(scratch: &mut Scratch, font: &Font, run: &str, is_rtl: bool) -> Vec<Glyph> {
        let em = font.face.units_per_em() as f32;
        let mut buffer = scratch.buffer.take().unwrap_or_default();
        buffer.set_direction(match is_rtl {
            true => Direction::RightToLeft,
            false => Direction::LeftToRight,
        });
        buffer.push_str(run);
        buffer.guess_segment_properties();
        assert_eq!(matches!(buffer.direction(), Direction::RightToLeft), is_rtl);
        let features = [Feature::new(Tag::from_bytes(b"kern"), 1, 0..usize::MAX)];
        let (direction, script) = (buffer.direction(), Some(buffer.script()));
        let language = buffer.language();
        let plan = ShapePlan::new(&font.face, direction, script, language.as_ref(), &features);
        let shaped = rustybuzz::shape_with_plan(&font.face, &plan, buffer);
        let both = shaped.glyph_infos().iter().zip(shaped.glyph_positions());
        let glyphs = both.map(|(info, position)| Glyph {
            start: info.cluster as usize,
            id: info.glyph_id.try_into().expect("glyphs have 16 bits"),
            advance: position.x_advance as f32 / em,
        });
        let glyphs = glyphs.collect();
        scratch.buffer = Some(shaped.clear());
        glyphs
    }

    fn shorter<'short, 'long: 'short>(face: &'short Face<'long>) -> &'short Face<'short> {
        face
    }

    #[test]
    fn threads_share_a_font_and_buffers_are_used_again() {
        let font = font(LETTERS).unwrap();
        assert_eq!(font.em_width, Some(0.25));
        assert!(font.scripts.contains(b"DFLT") && font.characters.contains(&0x61));
        assert!(shorter(&font.face).ascender() > 0 && font.face.descender() < 0);
        let threads = [("abc fi AV", 8), ("abc", 3), ("", 0)].map(|(text, count)| {
            let font = Arc::clone(&font);
            std::thread::spawn(move || {
                let mut scratch = Scratch::default();
                for _ in 0..3 {
                    assert_eq!(shape(&mut scratch, &font, text, false).len(), count);
                }
            })
        });
        for thread in threads {
            thread.join().unwrap();
        }
    }

    #[test]
    fn glyphs_that_are_missing_are_found_by_their_clusters() {
        let (font, mut scratch) = (font(LETTERS).unwrap(), Scratch::default());
        let glyphs = shape(&mut scratch, &font, "a\u{2603}b", false);
        let missing: Vec<usize> = glyphs
            .iter()
            .filter(|g| g.id == 0)
            .map(|g| g.start)
            .collect();
        assert_eq!(missing, [1]);
        let width: f32 = glyphs.iter().map(|glyph| glyph.advance).sum();
        assert!((width - 1.13).abs() < 1e-6);
        let glyphs = shape(
            &mut scratch,
            &super::lines_of_a_window::font(ARABIC).unwrap(),
            "سلام",
            true,
        );
        let starts: Vec<usize> = glyphs.iter().map(|glyph| glyph.start).collect();
        assert_eq!(starts, [6, 4, 2, 0]);
    }
}

/// A typesetter: plans are kept by their properties, and lines are cut where that is safe.
mod paragraphs_of_a_typesetter {
    use super::*;

    type Key = (Direction, Script, Option<Language>, Vec<u32>);

    #[derive(Default)]
    struct Plans(HashMap<Key, Arc<ShapePlan>>);

    impl Plans {
        fn of(
            &mut self,
            face: &Face,
            text: &UnicodeBuffer,
            features: &[Feature],
        ) -> Arc<ShapePlan> {
            let (direction, script, language) = (text.direction(), text.script(), text.language());
            let values = features.iter().map(|feature| feature.value).collect();
            let made =
                || ShapePlan::new(face, direction, Some(script), language.as_ref(), features);
            let key = (direction, script, language.clone(), values);
            Arc::clone(self.0.entry(key).or_insert_with(|| Arc::new(made())))
        }
    }

    struct Shaped {
        bytes: std::ops::Range<usize>,
        glyph: GlyphId,
        is_safe_to_break: bool,
    }

    fn shape(face: &Face, plans: &mut Plans, text: &str, features: &[Feature]) -> Vec<Shaped> {
        let mut buffer = UnicodeBuffer::new();
        buffer.push_str(text);
        buffer.set_language(Language::from_str("en-GB").unwrap());
        buffer.set_script(Script::from_iso15924_tag(Tag::from_bytes(b"latn")).unwrap());
        buffer.set_direction(Direction::LeftToRight);
        buffer.guess_segment_properties();
        buffer.set_flags(BufferFlags::REMOVE_DEFAULT_IGNORABLES);
        let plan = plans.of(face, &buffer, features);
        let shaped = rustybuzz::shape_with_plan(face, &plan, buffer);
        let infos = shaped.glyph_infos();
        let end = |i: usize| {
            infos
                .get(i + 1)
                .map_or(text.len(), |next| next.cluster as usize)
        };
        let glyphs = infos.iter().enumerate().map(|(i, info)| Shaped {
            bytes: info.cluster as usize..end(i),
            glyph: GlyphId(info.glyph_id as u16),
            is_safe_to_break: !info.unsafe_to_break(),
        });
        glyphs.collect()
    }

    fn is_shared<T: Send + Sync + 'static>() {}

    #[test]
    fn plans_are_kept_and_breaks_are_told() {
        is_shared::<ShapePlan>();
        let face = Face::from_slice(LETTERS, 0).unwrap();
        let mut plans = Plans::default();
        let glyphs = shape(&face, &mut plans, "abc fi AV", &[]);
        let unsafe_at = |glyphs: &[Shaped]| -> Vec<usize> {
            let marked = glyphs.iter().filter(|glyph| !glyph.is_safe_to_break);
            marked.map(|glyph| glyph.bytes.start).collect()
        };
        assert_eq!(unsafe_at(&glyphs), [8]);
        assert_eq!(glyphs[4].bytes, 4..6);
        let name = face.glyph_name(glyphs[4].glyph);
        assert_eq!(name, Some("f_i"));
        let off = [
            Feature::new(Tag::from_bytes(b"liga"), 0, ..),
            Feature::new(Tag::from_bytes(b"kern"), 0, ..),
        ];
        assert!(unsafe_at(&shape(&face, &mut plans, "fi AV", &off)).is_empty());
        assert_eq!(shape(&face, &mut plans, "f\u{ad}i", &[]).len(), 1);
        assert_eq!(plans.0.len(), 2);
    }
}

/// A layout of styled runs, which knows its characters and clusters itself.
mod runs_of_styled_text {
    use super::*;

    #[test]
    fn characters_are_added_one_by_one_with_their_contexts() {
        let face = Face::from_slice(ARABIC, 0).unwrap();
        let mut buffer = UnicodeBuffer::new();
        for (at, character) in "سلام".chars().enumerate() {
            buffer.add(character, at as u32);
        }
        buffer.set_pre_context("");
        buffer.set_post_context("");
        buffer.set_script(rustybuzz::script::ARABIC);
        buffer.set_direction(Direction::RightToLeft);
        buffer.set_cluster_level(BufferClusterLevel::MonotoneCharacters);
        assert_eq!(
            buffer.cluster_level(),
            BufferClusterLevel::MonotoneCharacters
        );
        buffer.set_flags(BufferFlags::BEGINNING_OF_TEXT | BufferFlags::END_OF_TEXT);
        let glyphs: GlyphBuffer = rustybuzz::shape(&face, &[], buffer);
        let clusters: Vec<u32> = glyphs
            .glyph_infos()
            .iter()
            .map(|info| info.cluster)
            .collect();
        assert_eq!(clusters, [3, 2, 1, 0]);
        let advances: Vec<i32> = glyphs
            .glyph_positions()
            .iter()
            .map(|at| at.x_advance)
            .collect();
        assert_eq!(advances, [722, 1421, 719, 1673]);
    }

    #[test]
    fn axes_are_chosen_by_names_and_values() {
        let mut face = Face::from_slice(VARIABLE, 0).unwrap();
        let axes: Vec<Tag> = face
            .variation_axes()
            .into_iter()
            .map(|axis| axis.tag)
            .collect();
        assert!(axes.contains(&Tag::from_bytes(b"wght")));
        let shaped = |face: &Face| -> Vec<i32> {
            let mut buffer = UnicodeBuffer::new();
            buffer.push_str("ab");
            let glyphs = rustybuzz::shape(face, &[], buffer);
            glyphs
                .glyph_positions()
                .iter()
                .map(|at| at.x_advance)
                .collect()
        };
        assert_eq!(shaped(&face), [535, 530]);
        let (tag, value) = (Tag::from_bytes(b"wght"), 700.0);
        face.set_variations(&[Variation { tag, value }]);
        assert_eq!(shaped(&face), [690, 611]);
        face.set_variations(&[Variation::from_str("wght=400").unwrap()]);
        assert_eq!(face.variation_coordinates().len(), axes.len());
    }
}

/// A program of command lines, as rustybuzz's own example is.
mod a_command_line {
    use super::*;

    struct Words<'a> {
        features: &'a str,
        direction: &'a str,
        script: &'a str,
        text: &'a str,
        is_by_number: bool,
    }

    fn printed(data: &[u8], words: &Words<'_>) -> Result<String, &'static str> {
        let mut face = Face::from_slice(data, 0).ok_or("malformed font")?;
        face.set_points_per_em(None);
        face.set_pixels_per_em(Some((0, 0)));
        let features = words.features.split(',').filter(|word| !word.is_empty());
        let features = features
            .map(Feature::from_str)
            .collect::<Result<Vec<_>, _>>()?;
        let mut buffer = UnicodeBuffer::new();
        buffer.push_str(words.text);
        buffer.set_direction(Direction::from_str(words.direction)?);
        buffer.set_script(Script::from_str(words.script)?);
        buffer.reset_clusters();
        let mut flags = SerializeFlags::default();
        if words.is_by_number {
            flags |= SerializeFlags::NO_GLYPH_NAMES | SerializeFlags::NO_CLUSTERS;
        }
        Ok(rustybuzz::shape(&face, &features, buffer).serialize(&face, flags))
    }

    #[test]
    fn words_are_parsed_and_glyphs_printed() {
        let words = Words {
            features: "-liga,-kern",
            direction: "ltr",
            script: "Latn",
            text: "fi AV",
            is_by_number: false,
        };
        let told = "f=0+460|i=1+490|space=2+250|A=3+610|V=4+820";
        assert_eq!(printed(LETTERS, &words).as_deref(), Ok(told));
        assert_eq!(
            printed(
                LETTERS,
                &Words {
                    direction: "up?",
                    ..words
                }
            ),
            Err("invalid direction")
        );
        assert_eq!(printed(b"no font", &words), Err("malformed font"));
    }

    #[test]
    fn numbers_of_glyphs_are_those_of_the_face() {
        let words = Words {
            features: "",
            direction: "ltr",
            script: "Latn",
            text: "ab",
            is_by_number: true,
        };
        let face = Face::from_slice(LETTERS, 0).unwrap();
        let [a, b] = ['a', 'b'].map(|letter| face.glyph_index(letter).unwrap().0);
        assert_eq!(printed(LETTERS, &words), Ok(format!("{a}+410|{b}+420")));
    }
}
