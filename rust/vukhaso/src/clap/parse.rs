//! The words of a command line.

use super::{Arg, ArgAction, ArgMatches, Command, Error, ErrorKind, Given, help, similar};
use crate::host::AsStr;
use crate::memory::{AllocError, String, Vec};

/// What is read of the words.
struct Reading<'a> {
    command: Command<'a>,
    /// The name of the program.
    name: &'a str,
    matches: ArgMatches<'a>,
}

/// What the words say, of which the first is the name of the program.
pub(super) fn matches_of<'a, S: AsStr>(
    command: Command<'a>,
    words: &'a [S],
) -> Result<ArgMatches<'a>, Error> {
    let mut reading = Reading {
        name: words.first().map_or(command.name, |word| {
            let path = word.as_str();
            path.rsplit('/').next().unwrap_or(path)
        }),
        command: with_help(command)?,
        matches: ArgMatches { given: Vec::new() },
    };
    let mut rest = words.iter().skip(1).map(AsStr::as_str);
    let mut is_behind = false;
    while let Some(word) = rest.next() {
        if is_behind || word == "-" || !word.starts_with('-') {
            reading.positional(word)?;
        } else if word == "--" {
            is_behind = true;
        } else if let Some(option) = word.strip_prefix("--") {
            reading.long(option, &mut rest)?;
        } else {
            reading.shorts(&word[1..], &mut rest)?;
        }
    }
    Ok(reading.matches)
}

/// The command with the options that each has, and that of the package's program.
fn with_help(mut command: Command<'_>) -> Result<Command<'_>, AllocError> {
    command.args.push(crate::jobs::option())?;
    command.args.push(
        Arg::new("help")
            .long("help")
            .short('h')
            .action(ArgAction::Help)
            .help("Print help"),
    )?;
    if command.version.is_some() {
        command.args.push(
            Arg::new("version")
                .long("version")
                .short('V')
                .action(ArgAction::Version)
                .help("Print version"),
        )?;
    }
    Ok(command)
}

impl<'a> Reading<'a> {
    /// Takes a word that is no option.
    fn positional(&mut self, word: &'a str) -> Result<(), Error> {
        let found = self.command.args.iter().find(|arg| arg.is_positional());
        match found.map(|arg| arg.id) {
            Some(id) => Ok(self.append(id, word)?),
            None => Err(self.mistake(format_args!("unexpected argument '{word}' found"), "")?),
        }
    }

    /// Takes an option of a long name, with its value.
    fn long(
        &mut self,
        option: &'a str,
        rest: &mut impl Iterator<Item = &'a str>,
    ) -> Result<(), Error> {
        let (name, value) = match option.split_once('=') {
            Some((name, value)) => (name, Some(value)),
            None => (option, None),
        };
        let found = self.command.args.iter().find(|arg| arg.long == Some(name));
        let Some(arg) = found.cloned() else {
            return Err(self.unknown(name)?);
        };
        if arg.takes_value() {
            return self.take_value(&arg, value, rest);
        }
        match value {
            None => self.act(&arg),
            Some(value) => Err(self.mistake(
                format_args!("unexpected value '{value}' for '{arg}' found; no more were expected"),
                "",
            )?),
        }
    }

    /// Takes options of one letter each, of which the last may have a value.
    fn shorts(
        &mut self,
        letters: &'a str,
        rest: &mut impl Iterator<Item = &'a str>,
    ) -> Result<(), Error> {
        for (at, letter) in letters.char_indices() {
            let found = self
                .command
                .args
                .iter()
                .find(|arg| arg.short == Some(letter));
            let Some(arg) = found.cloned() else {
                let tip = String::format(format_args!(
                    "\n\n  tip: to pass '-{letter}' as a value, use '-- -{letter}'"
                ))?;
                return Err(
                    self.mistake(format_args!("unexpected argument '-{letter}' found"), &tip)?
                );
            };
            if arg.takes_value() {
                let behind = &letters[at + letter.len_utf8()..];
                let attached = behind.strip_prefix('=').unwrap_or(behind);
                return self.take_value(&arg, (!behind.is_empty()).then_some(attached), rest);
            }
            self.act(&arg)?;
        }
        Ok(())
    }

    /// Takes the value of an option, which may be the next word.
    fn take_value(
        &mut self,
        arg: &Arg<'a>,
        attached: Option<&'a str>,
        rest: &mut impl Iterator<Item = &'a str>,
    ) -> Result<(), Error> {
        match attached.or_else(|| rest.next()) {
            Some(value) => Ok(self.set(arg.id, Some(value))?),
            None => {
                let mut message = String::format(format_args!(
                    "error: a value is required for '{arg}' but none was supplied"
                ))?;
                message.push_str(MORE)?;
                Err(Error {
                    kind: ErrorKind::Words,
                    message,
                })
            }
        }
    }

    /// Does what an option without a value is for.
    fn act(&mut self, arg: &Arg<'a>) -> Result<(), Error> {
        match arg.action {
            Some(ArgAction::Help) => Err(Error {
                kind: ErrorKind::DisplayHelp,
                message: help::help(&self.command, self.name)?,
            }),
            Some(ArgAction::Version) => Err(Error {
                kind: ErrorKind::DisplayVersion,
                message: String::format(format_args!(
                    "{} {}\n",
                    self.command.name,
                    self.command.version.unwrap_or_default()
                ))?,
            }),
            _ => Ok(self.set(arg.id, None)?),
        }
    }

    /// Gives an argument its value, in the place of an earlier one.
    fn set(&mut self, id: &'a str, value: Option<&'a str>) -> Result<(), AllocError> {
        let mut values = Vec::new();
        if let Some(value) = value {
            values.push(value)?;
        }
        self.matches.given.retain(|given| given.id != id);
        self.matches.given.push(Given { id, values })
    }

    /// Gives an argument one more value.
    fn append(&mut self, id: &'a str, value: &'a str) -> Result<(), AllocError> {
        if let Some(given) = self.matches.given.iter_mut().find(|given| given.id == id) {
            return given.values.push(value);
        }
        self.set(id, Some(value))
    }

    /// The error of an option that is not known, with the name that is like it.
    fn unknown(&self, name: &str) -> Result<Error, AllocError> {
        let longs = self.command.args.iter().filter_map(|arg| arg.long);
        let tip = match similar::most_similar(name, longs) {
            Some(similar) => String::format(format_args!(
                "\n\n  tip: a similar argument exists: '--{similar}'"
            ))?,
            None => String::format(format_args!(
                "\n\n  tip: to pass '--{name}' as a value, use '-- --{name}'"
            ))?,
        };
        self.mistake(format_args!("unexpected argument '--{name}' found"), &tip)
    }

    /// The error of words that are no command line.
    fn mistake(&self, what: core::fmt::Arguments<'_>, tip: &str) -> Result<Error, AllocError> {
        let usage = help::usage(&self.command, self.name)?;
        Ok(Error {
            kind: ErrorKind::Words,
            message: String::format(format_args!("error: {what}{tip}\n\nUsage: {usage}{MORE}"))?,
        })
    }
}

/// What stands at the end of a message.
const MORE: &str = "\n\nFor more information, try '--help'.\n";
