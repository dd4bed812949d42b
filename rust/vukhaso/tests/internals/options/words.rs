//! What a command line asks for.

use crate::Fail;
use vukhaso::internals::buffer::{BufferClusterLevel, Direction, GlyphId, SerializeFlags};
use vukhaso::internals::options::options::{Shaper, TextSource};
use vukhaso::internals::options::output::OutputFormat;
use vukhaso::internals::options::words::options_of;
use vukhaso::memory::TryDisplay;

#[test]
fn options_are_read() -> Result<(), Fail> {
    let words = [
        "program",
        "font.ttf",
        "--ned",
        "--features",
        "-liga",
        "--direction=t",
        "--face-index",
        "2",
        "--font-size=20,30",
        "--font-ppem=9",
        "--cluster-level=1",
        "--unicodes-before=0627",
        "--text-after",
        "x",
        "text",
    ];
    let options = options_of(&words).ok().ok_or("read")?;
    assert_eq!(options.font_file, "font.ttf");
    assert_eq!(options.font.index, 2);
    assert!(options.font.size == Some((20, 30)));
    assert!(options.font.pixels == Some((9, 9)));
    assert!(matches!(&options.text, TextSource::Given("text")));
    let ned = SerializeFlags::NO_CLUSTERS.union(SerializeFlags::NO_ADVANCES);
    assert_eq!(options.output.flags.bits(), ned.bits());
    assert!(options.output.format == OutputFormat::Text);
    assert!(!options.output.trace);
    assert_eq!(options.iterations, 1);
    assert!(options.line.direction == Direction::TopToBottom);
    assert!(options.line.cluster_level == BufferClusterLevel::MonotoneCharacters);
    assert_eq!(options.line.before.as_str(), "\u{627}");
    assert_eq!(options.line.after.as_str(), "x");
    assert_eq!(options.line.features.len(), 1);
    Ok(())
}

#[test]
fn options_of_one_letter_are_read() -> Result<(), Fail> {
    let words = [
        "program", "font", "-y", "2", "-n3", "-u", "41", "-v", "-V", "-o", "a.json",
    ];
    let options = options_of(&words).ok().ok_or("read")?;
    let shown = options.output.shown;
    assert_eq!(options.font.index, 2);
    assert_eq!(options.iterations, 3);
    assert!(matches!(&options.text, TextSource::CodePoints(_)));
    assert!(shown.text && shown.characters && shown.number);
    assert!(options.output.trace);
    let ned = SerializeFlags::NO_CLUSTERS.union(SerializeFlags::NO_ADVANCES);
    assert_eq!(options.output.flags.bits(), ned.bits());
    assert!(options.output_file == Some("a.json"));
    assert!(options.output.format == OutputFormat::Json);
    Ok(())
}

/// Words, and the format that they ask for.
static FORMATS: [(&[&str], OutputFormat); 6] = [
    (&["program", "font", "-O", "JSON"], OutputFormat::Json),
    (&["program", "font", "-O", "textual"], OutputFormat::Text),
    (&["program", "font", "-O", ""], OutputFormat::Nothing),
    (&["program", "font", "-o", "a.txt"], OutputFormat::Text),
    (&["program", "font", "-o", "a."], OutputFormat::Nothing),
    (
        &["program", "font", "-o", "a.json", "-Otext"],
        OutputFormat::Text,
    ),
];

#[test]
fn formats_are_read() -> Result<(), Fail> {
    for (words, format) in &FORMATS {
        let options = options_of(words).ok().ok_or("read")?;
        assert!(options.output.format == *format, "{words:?}");
    }
    Ok(())
}

/// Words that ask for a text, and how it begins.
static ASKED: [(&[&str], &str); 4] = [
    (&["program", "--list-shapers"], "ot\nfallback\n"),
    (&["program", "--version"], "vukhaso_shape (Vukhaso) "),
    (&["program", "--help-text"], "Options of the text"),
    (&["program", "--help-all"], "Shapes the lines of a text"),
];

#[test]
fn texts_are_told() -> Result<(), Fail> {
    for (words, beginning) in &ASKED {
        let told = options_of(words).err().ok_or("told")?;
        assert!(
            told.try_to_string()?.as_str().starts_with(*beginning),
            "{words:?}"
        );
    }
    Ok(())
}

/// Words behind the name of the program, and what is said of them.
static REFUSED: [(&[&str], &str); 17] = [
    (&["program"], "No font file set"),
    (
        &["program", "font", "a", "b"],
        "Too many arguments on the command line",
    ),
    (
        &["program", "font", "a", "--unicodes=41"],
        "Only one of text, unicodes and text-file can be set",
    ),
    (
        &["program", "font", "--unicodes=4g"],
        "Failed parsing Unicode values in '4g'",
    ),
    (
        &["program", "font", "--face-index=x"],
        "Cannot parse integer value 'x' for --face-index",
    ),
    (
        &["program", "font", "--font-size=x"],
        "--font-size argument should be one or two space-separated numbers, and not 'x'",
    ),
    (
        &["program", "font", "--shapers=ot,uniscribe"],
        "Unknown or unsupported shaper: uniscribe",
    ),
    (
        &["program", "font", "--font-slant=x"],
        "--font-slant argument should be one or two space-separated numbers, and not 'x'",
    ),
    (
        &["program", "font", "--font-bold=.1", "--font-grade=.1"],
        "Only one of --font-bold and --font-grade can be set",
    ),
    (
        &["program", "font", "--not-found-glyph=x"],
        "Cannot parse integer value 'x' for --not-found-glyph",
    ),
    (
        &["program", "font", "--font-funcs=ft"],
        "Unknown font function implementation 'ft'; supported values are: ot",
    ),
    (
        &["program", "font", "--named-instance=x"],
        "Cannot parse integer value 'x' for --named-instance",
    ),
    (
        &["program", "font", "--face-loader=ft"],
        "Unknown face loader 'ft'; supported values are: ot",
    ),
    (
        &["program", "font", "-O", "xml"],
        "Unknown output format 'xml'; supported formats are: text/json",
    ),
    (
        &["program", "font", "-n", "0"],
        "--num-iterations is at least 1",
    ),
    (
        &["program", "font", "--ft-load-flags=x"],
        "Cannot parse integer value 'x' for --ft-load-flags",
    ),
    (
        &["program", "font", "--text-before=a", "--unicodes-before=41"],
        "Only one of --text-before and --unicodes-before can be set",
    ),
];

#[test]
fn mistakes_are_told() -> Result<(), Fail> {
    for (words, message) in &REFUSED {
        let error = options_of(words).err().ok_or("refused")?;
        assert_eq!(error.try_to_string()?.as_str(), *message);
    }
    Ok(())
}

#[test]
fn ways_to_draw_glyphs_are_read() -> Result<(), Fail> {
    let plain = ["program", "font"];
    let bold = ["program", "font", "--font-bold=.5 1e1", "--font-slant=-.25"];
    let grade = ["program", "font", "--font-grade=2"];
    let options = options_of(&plain).ok().ok_or("read")?;
    let drawn = options.font.synthetic;
    assert!(drawn.bold == (0.0, 0.0) && !drawn.in_place && drawn.slant == 0.0);
    let options = options_of(&bold).ok().ok_or("read")?;
    let drawn = options.font.synthetic;
    assert!(drawn.bold == (0.5, 10.0) && !drawn.in_place && drawn.slant == -0.25);
    let options = options_of(&grade).ok().ok_or("read")?;
    let drawn = options.font.synthetic;
    assert!(drawn.bold == (2.0, 2.0) && drawn.in_place);
    Ok(())
}

#[test]
fn the_first_shaper_is_read() -> Result<(), Fail> {
    let words = [
        "program",
        "font",
        "--shapers=fallback,ot",
        "--not-found-glyph=3",
        "--normalize-glyphs",
    ];
    let options = options_of(&words).ok().ok_or("read")?;
    assert!(options.line.shaper == Shaper::Fallback);
    assert!(options.line.not_found_glyph == GlyphId(3) && options.line.normalize_glyphs);
    let words = ["program", "font"];
    let options = options_of(&words).ok().ok_or("read")?;
    assert!(options.line.shaper == Shaper::OpenType);
    assert!(options.line.not_found_glyph == GlyphId(0) && !options.line.normalize_glyphs);
    Ok(())
}

/// A size, and the length of an em across and upwards; none where it is refused.
static SIZES: [(&str, Option<(i32, i32)>); 10] = [
    ("20", Some((20, 20))),
    ("20 30", Some((20, 30))),
    ("20,30", Some((20, 30))),
    (" 20, 30", Some((20, 30))),
    ("12.7", Some((12, 12))),
    ("-12.7 .5", Some((-12, 0))),
    ("", None),
    (".", None),
    ("1.x", None),
    ("20 30 40", None),
];

#[test]
fn sizes_are_read() -> Result<(), Fail> {
    for (text, size) in &SIZES {
        let words = ["program", "font", "--font-size", *text];
        let read = match options_of(&words) {
            Ok(options) => options.font.size,
            Err(_) => None,
        };
        assert!(read == *size, "{text}");
    }
    Ok(())
}
