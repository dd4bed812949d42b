// Written by tools/plain_rust from crates/shape_options. Do not edit.

//! The words of a command line, by `clap`.

use crate::clap::{Arg, ArgAction, ArgMatches, Command, Error};
use crate::host::AsStr;
use crate::memory::{AllocError, String};
use crate::options::option_table::{HELP, OPTIONS, Row};

const ABOUT: &str =
    "Shapes the lines of a text with a font, and prints their glyphs as HarfBuzz's hb-shape does";

/// The shapers, as `--list-shapers` prints them.
const SHAPERS: &str = "ot\nfallback\n";

/// What `--version` prints.
const VERSION: &str = "vukhaso_shape (Vukhaso) 0.1.0\nAvailable shapers: ot,fallback\n";

/// What the words of a command line say; the first is the name of the program.
pub(crate) fn matches_of<'a, S: AsStr>(words: &'a [S]) -> Result<ArgMatches<'a>, Error> {
    command()?.try_get_matches_from(words)
}

/// The command line of the program. Of an option that is given twice the later one counts.
fn command<'a>() -> Result<Command<'a>, AllocError> {
    let command = Command::new("vukhaso_shape").about(ABOUT);
    let command = with_options(command, &OPTIONS, None)?;
    let command = with_options(command, &HELP, None)?;
    command.arg(words())
}

/// The words that are no options.
fn words<'a>() -> Arg<'a> {
    Arg::new("words")
        .value_name("FONT [TEXT]")
        .num_args(0..)
        .action(ArgAction::Append)
        .help("The font, and the text; without a text standard input is read")
}

/// A command with these options, or with those of a group among them.
fn with_options<'a>(
    command: Command<'a>,
    options: &'static [Row],
    group: Option<&str>,
) -> Result<Command<'a>, AllocError> {
    let mut command = command;
    for row in options {
        if group.is_none_or(|group| group == row.0) {
            command = with_option(command, option(row))?;
        }
    }
    Ok(command)
}

/// A command with one more option, if that was made.
fn with_option<'a>(
    command: Command<'a>,
    option: Result<Arg<'a>, AllocError>,
) -> Result<Command<'a>, AllocError> {
    match option {
        Ok(option) => command.arg(option),
        Err(error) => Err(error),
    }
}

/// An option, which may be given more than once, with a value where that has a name. `v` is a letter
/// alone.
fn option<'a>(row: &'static Row) -> Result<Arg<'a>, AllocError> {
    let (_, name, letter, value_name, help) = *row;
    let mut arg = Arg::new(name).help(help).overrides_with(name)?;
    if name != "v" {
        arg = arg.long(name);
    }
    if let Some(letter) = letter {
        arg = arg.short(letter);
    }
    if value_name.is_empty() {
        return Ok(arg.action(ArgAction::SetTrue));
    }
    Ok(arg.allow_hyphen_values(true).value_name(value_name))
}

/// What words ask for in place of answers, if they do: help on some options, the version or the
/// shapers.
pub(crate) fn asked_for(matches: &ArgMatches<'_>) -> Result<Option<String>, AllocError> {
    for (group, name, _, _, about) in &HELP {
        if matches.get_flag(name) {
            return Ok(Some(help_on(group, about)?));
        }
    }
    if matches.get_flag("version") {
        Ok(Some(String::from_str(VERSION)?))
    } else if matches.get_flag("list-shapers") {
        Ok(Some(String::from_str(SHAPERS)?))
    } else {
        Ok(None)
    }
}

/// The help on the options of a group, or on all where it has no name.
fn help_on(group: &str, about: &'static str) -> Result<String, AllocError> {
    if group.is_empty() {
        return command()?.render_help();
    }
    let command = Command::new("vukhaso_shape").about(about);
    with_options(command, &OPTIONS, Some(group))?.render_help()
}
