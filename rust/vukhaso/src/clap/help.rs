//! The text of `--help`.

use super::{Arg, Command};
use crate::memory::{AllocError, String};

/// How wide a terminal is.
const WIDTH: usize = 100;

/// The usage, behind its title.
pub(super) fn usage(command: &Command<'_>, name: &str) -> Result<String, AllocError> {
    let mut text = String::format(format_args!("{name} [OPTIONS]"))?;
    for arg in command.args.iter().filter(|arg| arg.is_positional()) {
        write!(text, " {arg}")?;
    }
    Ok(text)
}

/// The help of a command.
pub(super) fn help(command: &Command<'_>, name: &str) -> Result<String, AllocError> {
    let usage = usage(command, name)?;
    let mut text = String::new();
    writeln!(text, "{}\n\nUsage: {usage}", command.about)?;
    for (title, is_positional) in [("Arguments", true), ("Options", false)] {
        let shown = || {
            command
                .args
                .iter()
                .filter(move |arg| arg.is_positional() == is_positional)
        };
        let longest = shown().map(|arg| head_of(arg).len()).max().unwrap_or(0) + 2;
        let is_wide = longest > 40 && shown().any(|arg| longest + 2 + arg.help.len() > WIDTH);
        writeln!(text, "\n{title}:")?;
        for arg in shown() {
            write_arg(&mut text, arg, longest, is_wide)?;
        }
    }
    if let Some(after) = command.after {
        writeln!(text, "\n{after}")?;
    }
    Ok(text)
}

/// The names of an argument, and its value.
fn head_of(arg: &Arg<'_>) -> std::string::String {
    match (arg.short, arg.long) {
        (Some(short), Some(_)) => std::format!("-{short}, {arg}"),
        (None, Some(_)) => std::format!("    {arg}"),
        _ => std::format!("{arg}"),
    }
}

/// Writes an argument and what it is for, in a line of its own where the lines are wide.
fn write_arg(
    text: &mut String,
    arg: &Arg<'_>,
    longest: usize,
    is_wide: bool,
) -> Result<(), AllocError> {
    let (head, help) = (head_of(arg), arg.help);
    if is_wide {
        writeln!(text, "  {head}\n          {help}")
    } else {
        writeln!(text, "  {head:longest$}{help}")
    }
}
