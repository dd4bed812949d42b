// Written by tools/plain_rust from crates/shape_answers. Do not edit.

//! How the program ends.

use crate::answers::batch_answers::answer_batch;
use crate::answers::run::answer_command;
use crate::answers::texts::Shapes;
use crate::fonts::font_file::FontFile;
use crate::host::io::{self, BufRead, BufReader, BufWriter, Write};
use crate::host::{AllocGlobal, Eprint, Input, Print, env};
use crate::host::{Env, Files};
use crate::lines::errors::CommandError;
use crate::memory::{String, TryIterator, Vec};
use crate::options::words::WordsError;
use std::process::ExitCode;

/// The name of the program where it is not told.
pub(crate) const NAME: &str = "vukhaso_shape";

/// All that the program does. It gives the status to end with: 0, or 1 where something failed, which is
/// said on standard error.
///
/// # Proved
///
/// ```text
/// ensures { exit_status result ≤ 1 }
/// ```
#[inline]
pub fn run_with<F: Files + AllocGlobal + Env + Input + Print + Eprint, T: Shapes>(
    rt: &F,
    texts: &T,
) -> ExitCode {
    conclude(rt, run(rt, texts))
}

/// Says on standard error why a run ended early, and gives the status to end with: 0 where every line
/// was shaped, and else 1.
fn conclude<E: Eprint>(error_output: &E, outcome: io::Result<bool>) -> ExitCode {
    match outcome {
        Ok(true) => ExitCode::from(0),
        Ok(false) => ExitCode::from(1),
        Err(error) => {
            // If standard error fails too, there is no place left to report it.
            let _ = error_output.eprint_line(format_args!("{NAME}: {error}"));
            ExitCode::from(1)
        }
    }
}

/// Answers the command line of the program, or the batch on standard input.
fn run<F: Files + AllocGlobal + Env + Input + Print + Eprint, T: Shapes>(
    rt: &F,
    texts: &T,
) -> io::Result<bool> {
    let words: Vec<String> = env::args(rt)?.try_into_vec()?;
    run_words(rt, texts, words.as_slice())
}

/// Answers the words of a command line, the first of which is the name of the program.
fn run_words<F: Files + AllocGlobal + Input + Print + Eprint, T: Shapes>(
    rt: &F,
    texts: &T,
    words: &[String],
) -> io::Result<bool> {
    let mut input = BufReader::new(rt.reader())?;
    let mut output = BufWriter::new(io::writer(rt))?;
    if asks_for_batch(words) {
        answer_batch(rt, texts, &mut input, &mut output)
    } else {
        answer_words(rt, texts, words, &mut input, &mut output)
    }
}

/// Whether the words ask for the answers to a batch.
fn asks_for_batch(words: &[String]) -> bool {
    match words {
        [_, word] => word.as_str() == "--batch",
        _ => false,
    }
}

/// Answers the words of a command line, and says why that ended early, if it did.
fn answer_words<F: Files + AllocGlobal + Print + Eprint, T: Shapes, R: BufRead, W: Write>(
    rt: &F,
    texts: &T,
    words: &[String],
    input: &mut R,
    output: &mut W,
) -> io::Result<bool> {
    let mut file = FontFile::new();
    let answered = answer_command(rt, texts, words, &mut file, input, output);
    match output.flush() {
        Ok(()) => tell(rt, &answered),
        Err(error) => Err(error),
    }
}

/// Says why a command line was not answered to its end, or the text that it asks for.
fn tell<F: Print + Eprint>(rt: &F, answered: &Result<bool, CommandError<'_>>) -> io::Result<bool> {
    match answered {
        Ok(all_shaped) => Ok(*all_shaped),
        Err(CommandError::Words(WordsError::Words(error))) => say(rt, error),
        Err(CommandError::Words(WordsError::Asked(text))) => {
            rt.print(text)?;
            Ok(true)
        }
        Err(error) => complain(rt, error),
    }
}

/// Says why a command line was not answered to its end, and where it may be mended where help is to be
/// had.
fn complain<E: Eprint>(error_output: &E, error: &CommandError<'_>) -> io::Result<bool> {
    error_output.eprint_line(format_args!("{NAME}: {error}"))?;
    if error.wants_help() {
        error_output.eprint_line(format_args!("Try `{NAME} --help' for more information."))?;
    }
    Ok(false)
}

/// Says what is wrong with the words, or the help that they ask for.
fn say<F: Print + Eprint>(rt: &F, error: &crate::clap::Error) -> io::Result<bool> {
    error.print(rt)?;
    Ok(!error.use_stderr())
}
