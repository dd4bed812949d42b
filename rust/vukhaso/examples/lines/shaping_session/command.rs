// Written by tools/plain_rust from crates/shaping_session. Do not edit.

//! The commands, and how a line writes them.

use crate::shaping_session::words::Words;
use std::str;
use vukhaso::internals::buffer::BufferClusterLevel;
use vukhaso::internals::runs::Call;
use vukhaso::internals::text::Script;
use vukhaso::memory::{AllocError, Vec};

/// What a line asks for.
#[derive(Debug)]
pub enum Command<'a> {
    /// `push T`: put the characters of a text at the end.
    Push(&'a str),
    /// `add H N`: put one character at the end, in this cluster.
    Add { character: char, cluster: u32 },
    /// `level N`: say how far clusters are merged.
    Level(BufferClusterLevel),
    /// `flags N`: say how the text is treated, by the number of a set of flags.
    Flags(u32),
    /// `limit N`: say how many glyphs each side may hold.
    Limit(usize),
    /// A call's name and its numbers: make the call.
    Make(Call<'static>),
    /// `replace_glyphs A B ids..`: replace A glyphs by B, of these ids.
    ReplaceGlyphs { num_in: usize, ids: Vec<u32> },
    /// `state`: print the two lists.
    State,
    /// `serialize N`: print the glyphs under the flags of a number, and begin anew.
    Serialize(u8),
    /// `new`: begin with a new text.
    New,
    /// `feature T`: print the feature that a text reads as.
    Feature(&'a str),
    /// `tags S L`: print the OpenType tags of a script and of a language, of which `-` is none.
    Tags {
        script: Option<Script>,
        language: Option<&'a str>,
    },
    /// `compose H H`: print what two characters compose to.
    Compose(char, char),
    /// `decompose H`: print what a character decomposes to.
    Decompose(char),
}

/// All flags of a buffer: any number up to this is a set of them.
const ALL_BUFFER_FLAGS: u32 = 255;

/// All flags to print by: any number up to this is a set of them.
const ALL_SERIALIZE_FLAGS: u8 = 63;

/// The command that the bytes of a line write, if they write one.
///
/// # Errors
///
/// `Err(AllocError)` where memory ran out.
///
/// # Proved
///
/// ```text
/// ensures { IfOk result (λ found. MatchOption found (request_in_bytes line.now ≡ None)
///     (λ command. request_in_bytes line.now ≡ Some (request_of command))) }
/// ```
#[inline]
pub fn parse_bytes(line: &[u8]) -> Result<Option<Command<'_>>, AllocError> {
    match str::from_utf8(line) {
        Ok(text) => parse(text),
        Err(_) => Ok(None),
    }
}

/// The command that a line writes, if it writes one.
fn parse(line: &str) -> Result<Option<Command<'_>>, AllocError> {
    let mut words = Words::of(line);
    let Some(name) = words.word() else {
        return Ok(None);
    };
    let Some(command) = command_named(name, &mut words)? else {
        return Ok(None);
    };
    Ok(if words.at_end() { Some(command) } else { None })
}

/// The command of a name. Only one that replaces glyphs takes memory, for the ids.
fn command_named<'a>(name: &str, words: &mut Words<'a>) -> Result<Option<Command<'a>>, AllocError> {
    match name {
        "replace_glyphs" => replacement(words),
        _ => Ok(command_of(name, words)),
    }
}

/// The command that replaces glyphs: how many, by how many, and their ids.
fn replacement(words: &mut Words<'_>) -> Result<Option<Command<'static>>, AllocError> {
    let Some(num_in) = words.number_64() else {
        return Ok(None);
    };
    let Some(num_out) = words.number_64() else {
        return Ok(None);
    };
    let Some(ids) = ids(num_out, words)? else {
        return Ok(None);
    };
    Ok(Some(Command::ReplaceGlyphs { num_in, ids }))
}

/// This many ids, of which each is a word.
fn ids(count: usize, words: &mut Words<'_>) -> Result<Option<Vec<u32>>, AllocError> {
    let mut ids = Vec::new();
    for i in 0..count {
        let Some(id) = words.number() else {
            return Ok(None);
        };
        ids.push(id)?;
    }
    Ok(Some(ids))
}

/// The list of the commands, by their names, each with the words that belong to it. `replace_glyphs`,
/// which takes memory, stands before it, in `command_named`.
fn command_of<'a>(name: &str, words: &mut Words<'a>) -> Option<Command<'a>> {
    Some(match name {
        // the text, and how it is treated
        "push" => Command::Push(words.text()?),
        "add" => Command::Add {
            character: words.character()?,
            cluster: words.number()?,
        },
        "new" => Command::New,
        "level" => Command::Level(level_of(words.number()?)?),
        "flags" => Command::Flags(flags_of(words.number()?)?),
        "limit" => Command::Limit(words.number_64()?),
        // what is printed
        "state" => Command::State,
        "serialize" => Command::Serialize(serialize_flags_of(words.number()?)?),
        // questions that ask nothing of the text
        "feature" => Command::Feature(words.text()?),
        "tags" => Command::Tags {
            script: words.script()?,
            language: words.language()?,
        },
        "compose" => Command::Compose(words.character()?, words.character()?),
        "decompose" => Command::Decompose(words.character()?),
        // calls of the buffer, by their methods
        _ => Command::Make(call_of(name, words)?),
    })
}

/// The list of the calls, by the names of their methods.
fn call_of(name: &str, words: &mut Words<'_>) -> Option<Call<'static>> {
    Some(match name {
        "clear_output" => Call::ClearOutput,
        "next_glyph" => Call::NextGlyph,
        "next_glyphs" => Call::NextGlyphs(words.number_64()?),
        "skip_glyph" => Call::SkipGlyph,
        "move_to" => Call::MoveTo(words.number_64()?),
        "sync" => Call::Sync,
        "replace_glyph" => Call::ReplaceGlyph(words.number()?),
        "output_glyph" => Call::OutputGlyph(words.number()?),
        "copy_glyph" => Call::CopyGlyph,
        "delete_glyph" => Call::DeleteGlyph,
        _ => range_call_of(name, words.number_64()?, words.number_64()?)?,
    })
}

/// The list of the calls that take a start and an end.
fn range_call_of(name: &str, start: usize, end: usize) -> Option<Call<'static>> {
    Some(match name {
        "merge_clusters" => Call::MergeClusters(start, end),
        "merge_out_clusters" => Call::MergeOutClusters(start, end),
        "merge_grapheme_clusters" => Call::MergeGraphemeClusters(start, end),
        "unsafe_to_break" => Call::UnsafeToBreak(Some(start), Some(end)),
        "unsafe_to_break_from_outbuffer" => {
            Call::UnsafeToBreakFromOutbuffer(Some(start), Some(end))
        }
        "safe_to_insert_tatweel" => Call::SafeToInsertTatweel(Some(start), Some(end)),
        "unsafe_to_concat" => Call::UnsafeToConcat(Some(start), Some(end)),
        "unsafe_to_concat_from_outbuffer" => {
            Call::UnsafeToConcatFromOutbuffer(Some(start), Some(end))
        }
        _ => return None,
    })
}

/// The cluster level of a number.
fn level_of(number: u32) -> Option<BufferClusterLevel> {
    match number {
        0 => Some(BufferClusterLevel::MonotoneGraphemes),
        1 => Some(BufferClusterLevel::MonotoneCharacters),
        2 => Some(BufferClusterLevel::Characters),
        3 => Some(BufferClusterLevel::Graphemes),
        _ => None,
    }
}

/// A number that has none but flags of a buffer.
fn flags_of(number: u32) -> Option<u32> {
    if number <= ALL_BUFFER_FLAGS {
        Some(number)
    } else {
        None
    }
}

/// A number that has none but flags to print by.
fn serialize_flags_of(number: u32) -> Option<u8> {
    let flags = u8::try_from(number).ok()?;
    if flags <= ALL_SERIALIZE_FLAGS {
        Some(flags)
    } else {
        None
    }
}
