// Written by tools/plain_rust from crates/shape_options. Do not edit.

//! What a command line asks for.

use crate::buffer::{BufferClusterLevel, BufferFlags, Direction, Feature, GlyphId, Script, script};
use crate::clap::ArgMatches;
use crate::font_variations::user_variations::Variation;
use crate::memory::{AllocError, String, Vec};
use crate::options::code_points::{CodePointsError, code_points, text_of_code_points};
use crate::options::features::{features, unquoted};
use crate::options::output::{Output, output_of};
use crate::options::sizes::{one_or_two, sizes};
use crate::options::synthetic::{Synthetic, synthetic_of};
use crate::options::values::{level_of, refuse_functions, refuse_load_flags, refuse_loader};
use crate::options::variations::{value, variations};

/// Why the words of a command line ask for nothing that can be done.
#[derive(Debug)]
pub enum OptionsError<'a> {
    /// No font is named.
    NoFont,
    /// There is a third word.
    TooManyWords,
    /// Two texts are given.
    TwoTexts,
    /// Two texts are given that stand before each line, or two that stand after it.
    TwoContexts(&'static str),
    /// A value is no list of characters.
    CodePoints(&'a str),
    /// A value is no number, or too large or too small a one.
    Number(&'static str, &'a str),
    /// A value is not one or two numbers.
    Size(&'static str, &'a str),
    /// Glyphs are to be bolder, and bolder in place.
    TwoBolds,
    /// A shaper of this name is not known.
    Shaper(&'a str),
    /// Functions of a font of this name are not known.
    FontFuncs(&'a str),
    /// A reader of the font's file of this name is not known.
    FaceLoader(&'a str),
    /// A format of this name is not known.
    Format(&'a str),
    /// A line is to be shaped no time.
    NoIteration,
    /// The steps of shaping are to be drawn of the lines of a file.
    DrawnFile,
    /// There is no memory.
    Memory,
}

impl<'a> core::fmt::Display for OptionsError<'a> {
    fn fmt(&self, f: &mut core::fmt::Formatter<'_>) -> core::fmt::Result {
        match self {
            Self::NoFont => write!(f, "No font file set"),
            Self::TooManyWords => write!(f, "Too many arguments on the command line"),
            Self::TwoTexts => write!(f, "Only one of text, unicodes and text-file can be set"),
            Self::TwoContexts(n0) => {
                write!(f, "Only one of --text-{n0} and --unicodes-{n0} can be set")
            }
            Self::CodePoints(n0) => write!(f, "Failed parsing Unicode values in '{n0}'"),
            Self::Number(n0, n1) => write!(f, "Cannot parse integer value '{n1}' for --{n0}"),
            Self::Size(n0, n1) => write!(
                f,
                "--{n0} argument should be one or two space-separated numbers, and not '{n1}'"
            ),
            Self::TwoBolds => write!(f, "Only one of --font-bold and --font-grade can be set"),
            Self::Shaper(n0) => write!(f, "Unknown or unsupported shaper: {n0}"),
            Self::FontFuncs(n0) => write!(
                f,
                "Unknown font function implementation '{n0}'; supported values are: ot"
            ),
            Self::FaceLoader(n0) => {
                write!(f, "Unknown face loader '{n0}'; supported values are: ot")
            }
            Self::Format(n0) => write!(
                f,
                "Unknown output format '{n0}'; supported formats are: text/json"
            ),
            Self::NoIteration => write!(f, "--num-iterations is at least 1"),
            Self::DrawnFile => write!(
                f,
                "--svg draws one text, that of TEXT, --text or --unicodes"
            ),
            Self::Memory => write!(f, "out of memory"),
        }
    }
}

impl<'a> core::error::Error for OptionsError<'a> {}

impl From<AllocError> for OptionsError<'_> {
    fn from(_error: AllocError) -> Self {
        OptionsError::Memory
    }
}

/// Where the text comes from.
#[derive(Debug)]
pub enum TextSource<'a> {
    /// It is this one.
    Given(&'a str),
    /// It is made of characters that were given by their numbers.
    CodePoints(String),
    /// It is in this file.
    File(&'a str),
    /// It is on standard input.
    Input,
}

/// What makes glyphs of a text.
#[derive(Clone, Copy, PartialEq, Eq, Debug)]
pub enum Shaper {
    /// The tables of the font.
    OpenType,
    /// The glyphs of characters, and their advances alone.
    Fallback,
}

/// How lines are made into texts that are shaped, and how they are shaped.
#[derive(Debug)]
pub struct LineOptions<'a> {
    /// What makes glyphs of them.
    pub shaper: Shaper,
    /// The direction, or `Invalid` where it is guessed.
    pub direction: Direction,
    /// The script, unless it is guessed.
    pub script: Option<Script>,
    /// The language, as it was given.
    pub language: &'a str,
    /// How texts are treated.
    pub flags: BufferFlags,
    /// How far clusters are merged.
    pub cluster_level: BufferClusterLevel,
    /// The glyph of characters that are invisible by default.
    pub invisible_glyph: Option<GlyphId>,
    /// The glyph of characters that the font lacks; glyph 0 where none is named.
    pub not_found_glyph: GlyphId,
    /// The glyph of variation selectors that the font does not know.
    pub not_found_variation_selector_glyph: Option<u32>,
    /// Whether lines write glyphs, and no text.
    pub glyphs: bool,
    /// Whether the glyphs of a cluster are put in their nominal order.
    pub normalize_glyphs: bool,
    /// Whether clusters are numbers of bytes, and not of characters.
    pub utf8_clusters: bool,
    /// What stands before each line.
    pub before: String,
    /// What stands after each line.
    pub after: String,
    /// The features.
    pub features: Vec<Feature>,
}

/// A font of a file, and the size at which it is used.
#[derive(Clone, Copy, PartialEq, Debug)]
pub struct FontChoice {
    /// The number of the font in its file.
    pub index: u32,
    /// How long an em is across and upwards, unless it is as long as it has font units.
    pub size: Option<(i32, i32)>,
    /// How many pixels an em has across and upwards, where it is drawn in pixels.
    pub pixels: Option<(u16, u16)>,
    /// How many points an em has, where that is said.
    pub points: Option<f32>,
    /// The number of the named instance of a variable font, unless it is used with its defaults.
    pub named_instance: Option<u32>,
    /// How its glyphs are drawn otherwise than it has them.
    pub synthetic: Synthetic,
}

/// What a command line asks for.
#[derive(Debug)]
pub struct Options<'a> {
    /// The file of the font.
    pub font_file: &'a str,
    /// Which font of the file, and at which size.
    pub font: FontChoice,
    /// The variations of a variable font.
    pub variations: Vec<Variation>,
    /// Where the text comes from.
    pub text: TextSource<'a>,
    /// Whether the text is a single line.
    pub single_par: bool,
    /// How each line is shaped.
    pub line: LineOptions<'a>,
    /// How often each line is shaped; what the last time gives is printed.
    pub iterations: u32,
    /// What is printed of lines and of their glyphs.
    pub output: Output,
    /// The file in which it is written, unless that is standard output.
    pub output_file: Option<&'a str>,
    /// Whether the steps of shaping are drawn, in place of what is printed.
    pub svg: bool,
}

impl<'a> Options<'a> {
    /// What the words of a command line ask for.
    pub(crate) fn from_matches(matches: &ArgMatches<'a>) -> Result<Self, OptionsError<'a>> {
        refuse_unsupported(matches)?;
        let (font_file, word) = font_and_text(matches)?;
        let font = font_choice(matches)?;
        let iterations = iterations(matches)?;
        let output = output_of(matches)?;
        let variations = variations(unquoted(matches.get_str("variations").unwrap_or("")))?;
        let text = text_source(matches, word)?;
        let line = line_options(matches)?;
        Ok(Options {
            font_file,
            font,
            variations,
            text,
            single_par: matches.get_flag("single-par"),
            line,
            iterations,
            output,
            output_file: output_file(matches),
            svg: matches.get_flag("svg"),
        })
    }
}

/// The font of a file, and the size, that words ask for.
fn font_choice<'a>(matches: &ArgMatches<'a>) -> Result<FontChoice, OptionsError<'a>> {
    Ok(FontChoice {
        index: number(matches, "face-index")?.unwrap_or(0),
        size: font_size(matches)?,
        pixels: pixels(matches)?,
        points: points(matches)?,
        named_instance: number(matches, "named-instance")?,
        synthetic: synthetic_of(matches)?,
    })
}

/// Refuses the values of options that are there for HarfBuzz's sake alone, unless they change nothing.
fn refuse_unsupported<'a>(matches: &ArgMatches<'a>) -> Result<(), OptionsError<'a>> {
    refuse_loader(matches.get_str("face-loader"))?;
    refuse_load_flags(matches.get_str("ft-load-flags"))?;
    refuse_functions(matches.get_str("font-funcs"))?;
    Ok(())
}

/// The shapers, by their names.
static SHAPERS: [(&str, Shaper); 2] = [("ot", Shaper::OpenType), ("fallback", Shaper::Fallback)];

fn shaper_named(name: &str) -> Option<Shaper> {
    for (own, shaper) in &SHAPERS {
        if *own == name {
            return Some(*shaper);
        }
    }
    None
}

/// What makes glyphs: the first shaper that is named, since each of them shapes whatever the text is.
pub(crate) fn shaper_of<'a>(matches: &ArgMatches<'a>) -> Result<Shaper, OptionsError<'a>> {
    let mut first = None;
    for name in ["shapers", "shaper"] {
        for named in matches.get_str(name).unwrap_or("").split(',') {
            if named.is_empty() && matches.get_str(name).is_none() {
                continue;
            }
            let shaper = shaper_named(named).ok_or(OptionsError::Shaper(named))?;
            first = first.or(Some(shaper));
        }
    }
    Ok(first.unwrap_or(Shaper::OpenType))
}

/// The file of the font, and the text that is a word, if one is.
fn font_and_text<'a>(
    matches: &ArgMatches<'a>,
) -> Result<(&'a str, Option<&'a str>), OptionsError<'a>> {
    let words = matches.get_strs("words").unwrap_or(&[]);
    match (matches.get_str("font-file"), words) {
        (Some(font), []) => Ok((font, None)),
        (Some(font), [text]) => Ok((font, Some(*text))),
        (None, []) => Err(OptionsError::NoFont),
        (None, [font]) => Ok((*font, None)),
        (None, [font, text]) => Ok((*font, Some(*text))),
        _ => Err(OptionsError::TooManyWords),
    }
}

/// Where the text comes from.
fn text_source<'a>(
    matches: &ArgMatches<'a>,
    word: Option<&'a str>,
) -> Result<TextSource<'a>, OptionsError<'a>> {
    let given = (
        word.or(matches.get_str("text")),
        matches.get_str("unicodes"),
        matches.get_str("text-file"),
    );
    match given {
        (Some(_), None, None) if word.is_some() && matches.get_str("text").is_some() => {
            Err(OptionsError::TwoTexts)
        }
        (Some(text), None, None) => Ok(TextSource::Given(text)),
        (None, Some("*"), None) => Ok(TextSource::Given("*")),
        (None, Some(list), None) => Ok(TextSource::CodePoints(listed(list)?)),
        (None, None, None | Some("-")) => Ok(TextSource::Input),
        (None, None, Some(file)) => Ok(TextSource::File(file)),
        _ => Err(OptionsError::TwoTexts),
    }
}

/// The text of a list of characters.
fn listed<'a>(list: &'a str) -> Result<String, OptionsError<'a>> {
    let numbers = numbers_of(list)?;
    Ok(text_of_code_points(numbers.as_slice())?)
}

/// The text of a list of characters, which ends before U+0000, as a string of C does.
fn listed_string<'a>(list: &'a str) -> Result<String, OptionsError<'a>> {
    let mut numbers = numbers_of(list)?;
    let end = numbers.iter().position(|number| *number == 0);
    numbers.truncate(end.unwrap_or(numbers.len()));
    Ok(text_of_code_points(numbers.as_slice())?)
}

/// The numbers of a list of characters.
fn numbers_of<'a>(list: &'a str) -> Result<Vec<u32>, OptionsError<'a>> {
    match code_points(list) {
        Ok(numbers) => Ok(numbers),
        Err(CodePointsError::Number) => Err(OptionsError::CodePoints(list)),
        Err(CodePointsError::Memory) => Err(OptionsError::Memory),
    }
}

/// The text that stands before each line, or after it.
fn context<'a>(
    matches: &ArgMatches<'a>,
    side: &'static str,
    (text, unicodes): (&str, &str),
) -> Result<String, OptionsError<'a>> {
    match (matches.get_str(text), matches.get_str(unicodes)) {
        (Some(_), Some(_)) => Err(OptionsError::TwoContexts(side)),
        (Some(text), None) => Ok(String::from_str(text)?),
        (None, Some(list)) => listed_string(list),
        (None, None) => Ok(String::new()),
    }
}

/// How lines are made into texts and shaped.
fn line_options<'a>(matches: &ArgMatches<'a>) -> Result<LineOptions<'a>, OptionsError<'a>> {
    let direction = matches.get_str("direction").unwrap_or("");
    Ok(LineOptions {
        shaper: shaper_of(matches)?,
        direction: direction.parse::<Direction>().unwrap_or(Direction::Invalid),
        script: script_of(matches.get_str("script").unwrap_or("")),
        language: matches.get_str("language").unwrap_or(""),
        flags: buffer_flags(matches),
        cluster_level: cluster_level(matches)?,
        invisible_glyph: glyph(matches, "invisible-glyph")?,
        not_found_glyph: glyph(matches, "not-found-glyph")?.unwrap_or(GlyphId(0)),
        not_found_variation_selector_glyph: number(matches, "not-found-variation-selector-glyph")?,
        glyphs: matches.get_flag("glyphs"),
        normalize_glyphs: matches.get_flag("normalize-glyphs"),
        utf8_clusters: matches.get_flag("utf8-clusters"),
        before: context(matches, "before", ("text-before", "unicodes-before"))?,
        after: context(matches, "after", ("text-after", "unicodes-after"))?,
        features: features(unquoted(matches.get_str("features").unwrap_or("")))?,
    })
}

/// The script of a tag; none of the empty text.
fn script_of(tag: &str) -> Option<Script> {
    if tag.is_empty() {
        return None;
    }
    Some(tag.parse::<Script>().unwrap_or(script::UNKNOWN))
}

/// The value of an option that is a number.
fn number<'a>(
    matches: &ArgMatches<'a>,
    name: &'static str,
) -> Result<Option<u32>, OptionsError<'a>> {
    let Some(text) = matches.get_str(name) else {
        return Ok(None);
    };
    match text.parse::<u32>() {
        Ok(number) => Ok(Some(number)),
        Err(_) => Err(OptionsError::Number(name, text)),
    }
}

/// How often each line is shaped.
fn iterations<'a>(matches: &ArgMatches<'a>) -> Result<u32, OptionsError<'a>> {
    match number(matches, "num-iterations")?.unwrap_or(1) {
        0 => Err(OptionsError::NoIteration),
        iterations => Ok(iterations),
    }
}

/// The file of the output; none of `-`.
fn output_file<'a>(matches: &ArgMatches<'a>) -> Option<&'a str> {
    match matches.get_str("output-file") {
        None | Some("-") => None,
        Some(file) => Some(file),
    }
}

/// The value of an option that is the number of a glyph. Glyph 0 stands for no glyph.
fn glyph<'a>(
    matches: &ArgMatches<'a>,
    name: &'static str,
) -> Result<Option<GlyphId>, OptionsError<'a>> {
    let Some(text) = matches.get_str(name) else {
        return Ok(None);
    };
    match text.parse::<u16>() {
        Ok(0) => Ok(None),
        Ok(number) => Ok(Some(GlyphId(number))),
        Err(_) => Err(OptionsError::Number(name, text)),
    }
}

/// How far clusters are merged.
fn cluster_level<'a>(matches: &ArgMatches<'a>) -> Result<BufferClusterLevel, OptionsError<'a>> {
    level_of(matches.get_str("cluster-level"))
}

/// How long an em is across and upwards.
fn font_size<'a>(matches: &ArgMatches<'a>) -> Result<Option<(i32, i32)>, OptionsError<'a>> {
    match matches.get_str("font-size") {
        None | Some("upem") => Ok(None),
        Some(text) => match sizes(text) {
            Some(size) => Ok(Some(size)),
            None => Err(OptionsError::Size("font-size", text)),
        },
    }
}

/// How many pixels an em has across and upwards.
fn pixels<'a>(matches: &ArgMatches<'a>) -> Result<Option<(u16, u16)>, OptionsError<'a>> {
    let Some(text) = matches.get_str("font-ppem") else {
        return Ok(None);
    };
    let (first, second) = one_or_two(text);
    match (first.parse::<u16>(), second.parse::<u16>()) {
        (Ok(first), Ok(second)) => Ok(Some((first, second))),
        _ => Err(OptionsError::Size("font-ppem", text)),
    }
}

/// How many points an em has.
fn points<'a>(matches: &ArgMatches<'a>) -> Result<Option<f32>, OptionsError<'a>> {
    match matches.get_str("font-ptem") {
        None => Ok(None),
        Some(text) => match value(text) {
            Some(points) => Ok(Some(points)),
            None => Err(OptionsError::Size("font-ptem", text)),
        },
    }
}

/// How texts are treated.
fn buffer_flags(matches: &ArgMatches<'_>) -> BufferFlags {
    let mut flags = BufferFlags::empty();
    for (name, flag) in [
        ("bot", BufferFlags::BEGINNING_OF_TEXT),
        ("eot", BufferFlags::END_OF_TEXT),
        ("verify", BufferFlags::VERIFY),
        ("unsafe-to-concat", BufferFlags::PRODUCE_UNSAFE_TO_CONCAT),
        (
            "safe-to-insert-tatweel",
            BufferFlags::PRODUCE_SAFE_TO_INSERT_TATWEEL,
        ),
        (
            "preserve-default-ignorables",
            BufferFlags::PRESERVE_DEFAULT_IGNORABLES,
        ),
        (
            "remove-default-ignorables",
            BufferFlags::REMOVE_DEFAULT_IGNORABLES,
        ),
    ] {
        if matches.get_flag(name) {
            flags = flags.union(flag);
        }
    }
    flags
}
