//! Options of a command line, in the place of the crate of this name: what the program uses of it, with the same help and messages.

mod help;
mod parse;
mod similar;

use crate::host::{AsStr, Eprint, Print};
use crate::memory::{AllocError, String, Vec};
use core::fmt;

/// What is done where an argument is met.
#[allow(dead_code)] // as the crate has it, also where the program does not name it
#[derive(Clone, Copy, Debug, PartialEq, Eq)]
pub(crate) enum ArgAction {
    /// Its value is taken, in the place of an earlier one.
    Set,
    /// It takes no value, and is met or not.
    SetTrue,
    /// Its values are taken, behind earlier ones.
    Append,
    /// The help is printed.
    Help,
    /// The version is printed.
    Version,
}

/// An argument: an option, or what is no option.
#[derive(Clone, Debug)]
pub(crate) struct Arg<'a> {
    id: &'a str,
    long: Option<&'a str>,
    short: Option<char>,
    action: Option<ArgAction>,
    value_name: Option<&'a str>,
    help: &'a str,
}

impl<'a> Arg<'a> {
    /// An argument of this name, which is no option yet.
    pub(crate) fn new(id: &'a str) -> Self {
        Arg {
            id,
            long: None,
            short: None,
            action: None,
            value_name: None,
            help: "",
        }
    }

    /// Makes it an option of this name, behind `--`.
    pub(crate) fn long(self, long: &'a str) -> Self {
        Arg {
            long: Some(long),
            ..self
        }
    }

    /// Makes it an option of this letter, behind `-`.
    #[allow(dead_code)]
    pub(crate) fn short(self, short: char) -> Self {
        Arg {
            short: Some(short),
            ..self
        }
    }

    /// Says what is done where it is met.
    pub(crate) fn action(self, action: ArgAction) -> Self {
        Arg {
            action: Some(action),
            ..self
        }
    }

    /// Says that the later one of two counts, as all do here.
    #[allow(clippy::unnecessary_wraps)]
    pub(crate) fn overrides_with(self, _id: &'a str) -> Result<Self, AllocError> {
        Ok(self)
    }

    /// Says that its value may begin with a hyphen, as all may here.
    pub(crate) fn allow_hyphen_values(self, _allowed: bool) -> Self {
        self
    }

    /// Says how many values it has. What is no option has any number here.
    pub(crate) fn num_args<R>(self, _range: R) -> Self {
        self
    }

    /// Says what its value is called.
    pub(crate) fn value_name(self, name: &'a str) -> Self {
        Arg {
            value_name: Some(name),
            ..self
        }
    }

    /// Says what it is for.
    pub(crate) fn help(self, help: &'a str) -> Self {
        Arg { help, ..self }
    }

    fn is_positional(&self) -> bool {
        self.long.is_none() && self.short.is_none()
    }

    fn takes_value(&self) -> bool {
        matches!(self.action, None | Some(ArgAction::Set | ArgAction::Append))
    }
}

impl fmt::Display for Arg<'_> {
    /// The argument as messages name it.
    fn fmt(&self, f: &mut fmt::Formatter<'_>) -> fmt::Result {
        let value = self.value_name.unwrap_or(self.id);
        match (self.long, self.short) {
            (None, None) => return write!(f, "[{value}]..."),
            (Some(long), _) => write!(f, "--{long}")?,
            (None, Some(short)) => write!(f, "-{short}")?,
        }
        if self.takes_value() {
            write!(f, " <{value}>")?;
        }
        Ok(())
    }
}

/// A command line: its name, and its arguments.
#[derive(Debug)]
pub(crate) struct Command<'a> {
    name: &'a str,
    about: &'a str,
    version: Option<&'a str>,
    after: Option<&'a str>,
    args: Vec<Arg<'a>>,
}

impl<'a> Command<'a> {
    /// A command of this name with no argument yet.
    pub(crate) fn new(name: &'a str) -> Self {
        Command {
            name,
            about: "",
            version: None,
            after: None,
            args: Vec::new(),
        }
    }

    /// Says what the command does.
    pub(crate) fn about(self, about: &'a str) -> Self {
        Command { about, ..self }
    }

    /// Says the version, which `--version` prints.
    #[allow(dead_code)]
    pub(crate) fn version(self, version: &'a str) -> Self {
        Command {
            version: Some(version),
            ..self
        }
    }

    /// Says what stands at the end of the help.
    #[allow(dead_code)]
    pub(crate) fn after_help(self, after: &'a str) -> Self {
        Command {
            after: Some(after),
            ..self
        }
    }

    /// Adds an argument.
    pub(crate) fn arg(mut self, arg: Arg<'a>) -> Result<Self, AllocError> {
        self.args.push(arg)?;
        Ok(self)
    }

    /// The help, with the name of the command for that of the program.
    pub(crate) fn render_help(&mut self) -> Result<String, AllocError> {
        help::help(self, self.name)
    }

    /// What the words say, of which the first is the name of the program.
    pub(crate) fn try_get_matches_from<S: AsStr>(
        self,
        words: &'a [S],
    ) -> Result<ArgMatches<'a>, Error> {
        parse::matches_of(self, words)
    }
}

/// What an argument was given.
#[derive(Debug)]
struct Given<'a> {
    id: &'a str,
    values: Vec<&'a str>,
}

/// What the words of a command line say.
#[derive(Debug)]
pub(crate) struct ArgMatches<'a> {
    given: Vec<Given<'a>>,
}

impl<'a> ArgMatches<'a> {
    fn of(&self, id: &str) -> Option<&Given<'a>> {
        self.given.iter().find(|given| given.id == id)
    }

    /// Whether the argument was met.
    pub(crate) fn get_flag(&self, id: &str) -> bool {
        self.of(id).is_some()
    }

    /// The value of an argument.
    pub(crate) fn get_str(&self, id: &str) -> Option<&'a str> {
        self.of(id)?.values.first().copied()
    }

    /// The values of an argument.
    pub(crate) fn get_strs(&self, id: &str) -> Option<&[&'a str]> {
        Some(self.of(id)?.values.as_slice())
    }
}

/// What went wrong, or what was asked for.
#[derive(Clone, Copy, Debug, PartialEq, Eq)]
pub(crate) enum ErrorKind {
    /// The words are no command line.
    Words,
    /// The help was asked for.
    DisplayHelp,
    /// The version was asked for.
    DisplayVersion,
    /// There is no memory.
    OutOfMemory,
}

/// Why the words of a command line say nothing that can be done, or the text that they ask for.
#[derive(Debug)]
pub struct Error {
    kind: ErrorKind,
    message: String,
}

impl Error {
    /// What went wrong.
    #[allow(dead_code)]
    pub(crate) fn kind(&self) -> ErrorKind {
        self.kind
    }

    /// Whether it is a mistake.
    pub(crate) fn use_stderr(&self) -> bool {
        !matches!(
            self.kind,
            ErrorKind::DisplayHelp | ErrorKind::DisplayVersion
        )
    }

    /// Prints a mistake to standard error, and what was asked for to standard output.
    pub(crate) fn print<R: Print + Eprint>(&self, rt: &R) -> std::io::Result<()> {
        if self.use_stderr() {
            rt.eprint(self)
        } else {
            rt.print(self)
        }
    }
}

impl From<AllocError> for Error {
    fn from(_: AllocError) -> Self {
        Error {
            kind: ErrorKind::OutOfMemory,
            message: String::new(),
        }
    }
}

impl fmt::Display for Error {
    fn fmt(&self, f: &mut fmt::Formatter<'_>) -> fmt::Result {
        match self.kind {
            ErrorKind::OutOfMemory => f.write_str("error: out of memory\n"),
            _ => f.write_str(&self.message),
        }
    }
}

impl core::error::Error for Error {}
