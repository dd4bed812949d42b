//! Which shaper a text has, and what each says of itself, as HarfBuzz's `hb_ot_shaper_categorize` and its shapers have it; and how
//! characters join, by Unicode's ArabicShaping.txt.

use vukhaso::internals::common::{Direction, Script, Tag, script};
use vukhaso::internals::script_joining::{JoiningType, joining_type};
use vukhaso::internals::script_shapers::{NormalizationMode, ScriptShaper, ZeroWidthMarks};

const LEFT: Direction = Direction::RightToLeft;

const RIGHT: Direction = Direction::LeftToRight;

const DOWN: Direction = Direction::TopToBottom;

/// A script, the direction of a text in it, the tag that the font has it under, and its shaper.
type Row = (Option<Script>, Direction, &'static [u8; 4], ScriptShaper);

/// Asserts the shapers of scripts.
fn assert_shapers(rows: &[Row]) {
    for (script, direction, tag, shaper) in rows {
        let found = ScriptShaper::of(*script, *direction, Tag::from_bytes(tag));
        assert_eq!(found, *shaper, "{shaper:?} of {tag:?}");
    }
}

/// Each script has its shaper. Vertical Arabic does not join, nor does Syriac of a font that has only
/// the default script.
#[test]
fn scripts_have_shapers() {
    let rows: [Row; 12] = [
        (Some(script::ARABIC), LEFT, b"some", ScriptShaper::Arabic),
        (Some(script::SYRIAC), LEFT, b"some", ScriptShaper::Arabic),
        (Some(script::HEBREW), LEFT, b"some", ScriptShaper::Hebrew),
        (Some(script::HANGUL), RIGHT, b"some", ScriptShaper::Hangul),
        (Some(script::THAI), RIGHT, b"some", ScriptShaper::Thai),
        (Some(script::LAO), RIGHT, b"some", ScriptShaper::Thai),
        (Some(script::LATIN), RIGHT, b"some", ScriptShaper::Default),
        (Some(script::ARABIC), DOWN, b"some", ScriptShaper::Default),
        (Some(script::HANGUL), DOWN, b"some", ScriptShaper::Hangul),
        (Some(script::SYRIAC), LEFT, b"DFLT", ScriptShaper::Default),
        (Some(script::ARABIC), LEFT, b"DFLT", ScriptShaper::Arabic),
        (None, LEFT, b"DFLT", ScriptShaper::Default),
    ];
    assert_shapers(&rows);
}

/// Scripts that are written in syllables have their shapers, by the tag that the font has them under.
#[test]
fn scripts_in_syllables_have_shapers() {
    let rows: [Row; 12] = [
        (
            Some(script::DEVANAGARI),
            RIGHT,
            b"deva",
            ScriptShaper::Indic,
        ),
        (Some(script::MALAYALAM), RIGHT, b"mlm2", ScriptShaper::Indic),
        (Some(script::TAMIL), RIGHT, b"tml3", ScriptShaper::Universal),
        (Some(script::BENGALI), RIGHT, b"latn", ScriptShaper::Default),
        (Some(script::KHMER), RIGHT, b"khmr", ScriptShaper::Khmer),
        (Some(script::MYANMAR), RIGHT, b"mym2", ScriptShaper::Myanmar),
        (Some(script::MYANMAR), RIGHT, b"mymr", ScriptShaper::Default),
        (
            Some(script::MYANMAR_ZAWGYI),
            RIGHT,
            b"mymr",
            ScriptShaper::Zawgyi,
        ),
        (
            Some(script::SINHALA),
            RIGHT,
            b"sinh",
            ScriptShaper::Universal,
        ),
        (Some(script::TIBETAN), RIGHT, b"DFLT", ScriptShaper::Default),
        (
            Some(script::MONGOLIAN),
            RIGHT,
            b"mong",
            ScriptShaper::UniversalJoining,
        ),
        (
            Some(script::NKO),
            RIGHT,
            b"nko ",
            ScriptShaper::UniversalJoining,
        ),
    ];
    assert_shapers(&rows);
}

/// Hebrew wants a script of its own in `GPOS`, and marks of Hangul and Thai are not placed without a
/// font's help.
#[test]
fn shapers_differ_in_positions() {
    let hebrew = Some(Tag::from_bytes(b"hebr"));
    assert_eq!(ScriptShaper::Hebrew.gpos_script(), hebrew);
    assert!(ScriptShaper::Arabic.gpos_script().is_none());
    assert!(ScriptShaper::Arabic.fallback_position());
    assert!(!ScriptShaper::Hangul.fallback_position());
    assert!(!ScriptShaper::Thai.fallback_position());
}

/// Hangul composes nothing, and its marks keep their width.
#[test]
fn shapers_differ_in_marks() {
    let (nothing, auto) = (NormalizationMode::Nothing, NormalizationMode::Auto);
    assert_eq!(ScriptShaper::Hangul.normalization_mode(), nothing);
    assert_eq!(ScriptShaper::Thai.normalization_mode(), auto);
    assert_eq!(ScriptShaper::Plain.normalization_mode(), auto);
    let (never, late) = (ZeroWidthMarks::Never, ZeroWidthMarks::Late);
    assert_eq!(ScriptShaper::Hangul.zero_width_marks(), never);
    assert_eq!(ScriptShaper::Hebrew.zero_width_marks(), late);
    assert_eq!(ScriptShaper::Plain.zero_width_marks(), never);
}

/// Where Apple's `morx` substitutes glyphs the shaper is the plain one, but for the default one.
#[test]
fn shapers_give_way_to_morx() {
    let (myanmar, default) = (ScriptShaper::Myanmar, ScriptShaper::Default);
    assert_eq!(myanmar.with_morx(true), ScriptShaper::Plain);
    assert_eq!(myanmar.with_morx(false), myanmar);
    assert_eq!(default.with_morx(true), default);
}

/// A character decomposes as Unicode says: an alef with a madda above, and a Hangul syllable.
#[test]
fn characters_decompose() {
    let alef = ScriptShaper::Arabic.decompose('\u{622}');
    assert_eq!(alef, Some(('\u{627}', Some('\u{653}'))));
    let syllable = ScriptShaper::Default.decompose('\u{ac01}');
    assert_eq!(syllable, Some(('\u{ac00}', Some('\u{11a8}'))));
    assert!(ScriptShaper::Hebrew.decompose('\u{5d0}').is_none());
}

/// Characters, whether each is a mark or a format character, and how it joins: hamza, Manichaean heth, alef, beh, and Syriac alaph and
/// dalath. A fatha is a mark, a zero width joiner makes its neighbours join, and a non-joiner does not.
static TYPES: [(u32, bool, JoiningType); 10] = [
    (0x621, false, JoiningType::NonJoining),
    (0x10AD7, false, JoiningType::Left),
    (0x627, false, JoiningType::Right),
    (0x628, false, JoiningType::Dual),
    (0x710, false, JoiningType::Alaph),
    (0x715, false, JoiningType::DalathRish),
    (0x64E, true, JoiningType::Transparent),
    (0x200D, true, JoiningType::Dual),
    (0x200C, true, JoiningType::NonJoining),
    (0x41, false, JoiningType::NonJoining),
];

/// A letter of each type.
#[test]
fn letters_have_types() {
    for (character, is_mark, wanted) in &TYPES {
        assert_eq!(joining_type(*character, *is_mark), *wanted, "{character}");
    }
}

/// On which sides letters join, and that what is transparent gives way to what stands beyond.
#[test]
fn types_join() {
    let dual = JoiningType::Dual;
    assert!(dual.joins_next());
    assert!(dual.joins_previous());
    assert!(JoiningType::Left.joins_next());
    assert!(!JoiningType::Left.joins_previous());
    assert!(!JoiningType::Right.joins_next());
    assert!(JoiningType::Right.joins_previous());
    assert!(!JoiningType::NonJoining.joins_next());
    assert_eq!(JoiningType::Transparent.or_beyond(dual), dual);
    assert_eq!(JoiningType::Right.or_beyond(dual), JoiningType::Right);
}
