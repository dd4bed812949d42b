// Written by tools/plain_rust from crates/shape_options. Do not edit.

//! Glyphs that are bolder or slanted though the font has none such, as words ask for them.

use crate::clap::ArgMatches;
use crate::options::options::OptionsError;
use crate::options::sizes::one_or_two;
use crate::options::variations::value;

/// How glyphs are drawn otherwise than the font has them (HarfBuzz's `hb_font_set_synthetic_bold` and `hb_font_set_synthetic_slant`).
#[derive(Clone, Copy, PartialEq, Debug)]
pub struct Synthetic {
    /// How much bolder they are across and upwards, in ems.
    pub bold: (f32, f32),
    /// Whether they stay as far apart as they are, though they are bolder.
    pub in_place: bool,
    /// How far to the right what stands an em higher is moved, in ems.
    pub slant: f32,
}

/// What the words of a command line say of it.
pub(crate) fn synthetic_of<'a>(matches: &ArgMatches<'a>) -> Result<Synthetic, OptionsError<'a>> {
    let bold = matches.get_str("font-bold");
    let grade = matches.get_str("font-grade");
    of_values(bold, grade, matches.get_str("font-slant"))
}

/// What the values of its options say of it.
fn of_values<'a>(
    bold: Option<&'a str>,
    grade: Option<&'a str>,
    slant: Option<&'a str>,
) -> Result<Synthetic, OptionsError<'a>> {
    match grade {
        Some(grade) => {
            if bold.is_some() {
                return Err(OptionsError::TwoBolds);
            }
            let bold = strengths("font-grade", Some(grade))?;
            let slant = number_or_0("font-slant", slant)?;
            Ok(Synthetic {
                bold,
                in_place: true,
                slant,
            })
        }
        None => {
            let bold = strengths("font-bold", bold)?;
            let slant = number_or_0("font-slant", slant)?;
            Ok(Synthetic {
                bold,
                in_place: false,
                slant,
            })
        }
    }
}

/// The strengths across and upwards that an option asks for.
fn strengths<'a>(
    name: &'static str,
    text: Option<&'a str>,
) -> Result<(f32, f32), OptionsError<'a>> {
    let Some(text) = text else {
        return Ok((0.0, 0.0));
    };
    let (first, second) = one_or_two(text);
    match (value(first), value(second)) {
        (Some(across), Some(upwards)) => Ok((across, upwards)),
        _ => Err(OptionsError::Size(name, text)),
    }
}

/// The number of an option, and 0 where it is not given.
fn number_or_0<'a>(name: &'static str, text: Option<&'a str>) -> Result<f32, OptionsError<'a>> {
    match text {
        Some(text) => match value(text) {
            Some(number) => Ok(number),
            None => Err(OptionsError::Size(name, text)),
        },
        None => Ok(0.0),
    }
}
