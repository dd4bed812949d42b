//! `--jobs` of the program: the lines of a text are shaped on several threads, which share the font's face.
//!
//! Lines are read and written by the round. A round is cut into pieces of whole lines, and each thread takes the next piece that
//! nobody took. Its answers are kept with the piece, so that all is printed in order, as one thread prints it.

mod rounds;

use crate::answers::ending::NAME;
use crate::answers::run::shaper_of;
use crate::clap::{Arg, ArgMatches};
use crate::command::ending;
use crate::fonts::font_file::FontFile;
use crate::host::io::{BufRead, BufReader, BufWriter};
use crate::host::{Env, Host, fs};
use crate::kept::loaded_font::LoadedFont;
use crate::lines::errors::CommandError;
use crate::lines::fonts::read_font_file;
use crate::memory::String;
use crate::options::arguments::matches_of;
use crate::options::options::{Options, TextSource};
use crate::options::words::options_of;
use core::fmt::Display;
use rounds::Rounds;
use std::io::{self, Write};
use std::process::ExitCode;

/// The most threads that may be asked for.
const MOST: usize = 256;

/// Options with which lines are not answered each for itself, or elsewhere than on standard output.
const ALONE: [&str; 7] = [
    "svg",
    "single-par",
    "show-line-num",
    "verbose",
    "v",
    "trace",
    "output-file",
];

/// The option, which the parser knows beside those of the command.
pub(crate) fn option() -> Arg<'static> {
    Arg::new("jobs")
        .long("jobs")
        .value_name("NUMBER")
        .help("Shape the lines of the text on this many threads [default: 1]")
}

/// Does all that the program does, and gives the status to end with.
pub(crate) fn run_to_end() -> ExitCode {
    let words: std::vec::Vec<_> = match Host.words() {
        Ok(words) => words.collect(),
        Err(_) => return ending::run_to_end(&Host),
    };
    match matches_of(&words) {
        Ok(matches) if matches.get_flag("jobs") => conclude(&matches, &words),
        _ => ending::run_to_end(&Host),
    }
}

/// Why the lines were not shared out, or not all of them answered.
enum Stop<'a> {
    /// No line is answered, and one thread says why.
    Words,
    /// Lines are not shared out with this option.
    Alone(&'static str),
    /// This is no number of threads.
    Number(&'a str),
    /// What one thread says too.
    Command(CommandError<'a>),
}

impl<'a, E: Into<CommandError<'a>>> From<E> for Stop<'a> {
    fn from(error: E) -> Self {
        Stop::Command(error.into())
    }
}

impl Display for Stop<'_> {
    fn fmt(&self, f: &mut core::fmt::Formatter<'_>) -> core::fmt::Result {
        match self {
            Stop::Words => f.write_str("no line is answered"),
            Stop::Alone(option) => write!(f, "--jobs shares out lines, and not with --{option}"),
            Stop::Number(word) => write!(f, "--jobs is from 1 to {MOST}, and not '{word}'"),
            Stop::Command(error) => write!(f, "{error}"),
        }
    }
}

/// Answers a command line, and says on standard error why that ended early. The status is 0 where every line was shaped.
fn conclude(matches: &ArgMatches<'_>, words: &[String]) -> ExitCode {
    let answered = BufWriter::new(io::stdout()).and_then(|mut output| {
        let answered = answer(matches, words, &mut output);
        output.flush()?;
        Ok(answered)
    });
    let why: &dyn Display = match &answered {
        Ok(Ok(true)) => return ExitCode::SUCCESS,
        Ok(Ok(false)) => return ExitCode::FAILURE,
        Ok(Err(Stop::Words)) => return ending::run_to_end(&Host),
        Ok(Err(stop)) => stop,
        Err(error) => error,
    };
    // Where standard error fails too, there is no place left to say it.
    let _ = writeln!(io::stderr(), "{}: {why}", NAME);
    ExitCode::FAILURE
}

/// Answers a command line, and says whether each line was shaped.
fn answer<'a>(
    matches: &ArgMatches<'a>,
    words: &'a [String],
    output: &mut impl Write,
) -> Result<bool, Stop<'a>> {
    let options = options_of(words).map_err(|_| Stop::Words)?;
    let jobs = number_of_jobs(matches)?;
    let mut file = FontFile::new();
    read_font_file(&Host, &options, &mut file).map_err(|_| Stop::Words)?;
    let mut font = LoadedFont::new(&file, options.font)?.ok_or(Stop::Words)?;
    font.vary(&options.variations)?;
    answer_text(&font, &options, jobs, output)
}

/// The number of threads that are asked for.
fn number_of_jobs<'a>(matches: &ArgMatches<'a>) -> Result<usize, Stop<'a>> {
    if let Some(option) = ALONE.iter().find(|option| matches.get_flag(option)) {
        return Err(Stop::Alone(option));
    }
    let word = matches.get_str("jobs").unwrap_or("");
    match word.parse() {
        Ok(number) if (1..=MOST).contains(&number) => Ok(number),
        _ => Err(Stop::Number(word)),
    }
}

/// Answers a text, from where it comes.
fn answer_text<'a>(
    font: &LoadedFont<'_>,
    options: &Options<'a>,
    jobs: usize,
    output: &mut impl Write,
) -> Result<bool, Stop<'a>> {
    let (file, given) = match &options.text {
        TextSource::Given(text) => ("TEXT", text.as_bytes()),
        TextSource::CodePoints(text) => ("TEXT", text.as_bytes()),
        TextSource::Input => {
            return answer_lines(font, options, jobs, ("-", io::stdin().lock()), output);
        }
        TextSource::File(file) => {
            let opened = fs::open(&Host, file).and_then(BufReader::new);
            let reader = opened.map_err(|_| Stop::Words)?;
            return answer_lines(font, options, jobs, (file, reader), output);
        }
    };
    answer_lines(font, options, jobs, (file, given), output)
}

/// Answers the lines of a text that is named so in errors.
fn answer_lines<'a, R: BufRead>(
    font: &LoadedFont<'_>,
    options: &Options<'a>,
    jobs: usize,
    (file, mut reader): (&'a str, R),
    output: &mut impl Write,
) -> Result<bool, Stop<'a>> {
    let rounds = Rounds::new(shaper_of(font, options), jobs)?;
    match rounds.answer_all(&mut reader, output) {
        Ok(shaped) if shaped.has_given_up => Err(CommandError::GivenUp.into()),
        Ok(shaped) => Ok(shaped.all),
        Err(error) => Err(CommandError::of_lines(file, error).into()),
    }
}
