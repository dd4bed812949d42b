// Written by tools/plain_rust from crates/shaping_session. Do not edit.

//! What the commands work on, and what each of them does.

use crate::shaping_session::command::Command;
use crate::shaping_session::query;
use crate::shaping_session::reply::Reply;
use crate::shaping_session::state_text::print_state;
use vukhaso::internals::buffer::{
    BufferClusterLevel, BufferFlags, GlyphBuffer, SerializeFlags, UnicodeBuffer, hb_buffer_t,
};
use vukhaso::internals::glyph::{NoGlyphNames, hb_glyph_info_t};
use vukhaso::internals::runs::{Call, make_call};
use vukhaso::memory::{AllocError, String};

/// A text that grows, and then the buffer that it was turned into.
#[derive(Debug)]
pub enum Session {
    Text(UnicodeBuffer),
    Turned(hb_buffer_t),
}

impl Session {
    /// An empty text.
    ///
    /// # Proved
    ///
    /// ```text
    /// ensures { result ≡ fresh }
    /// ```
    #[inline]
    pub fn new() -> Session {
        Session::Text(UnicodeBuffer::new())
    }

    /// Does what a command asks for, and answers it.
    ///
    /// # Errors
    ///
    /// `Err(AllocError)` where memory ran out.
    ///
    /// # Proved
    ///
    /// ```text
    /// ensures { IfOk result (λ next.
    ///     Follows (request_of command.entry) self next.0 (reply_text next.1)) }
    /// ```
    pub fn obey(self, command: Command<'_>) -> Result<(Session, Reply), AllocError> {
        match command {
            Command::Push(text) => self.push(text),
            Command::Add { character, cluster } => self.add(character, cluster),
            Command::Level(level) => Ok(self.set_level(level)),
            Command::Flags(flags) => Ok(self.set_flags(flags)),
            Command::Limit(number) => Ok(self.limit(number)),
            Command::Make(call) => self.make(call),
            Command::ReplaceGlyphs { num_in, ids } => self.replace_glyphs(num_in, ids.as_slice()),
            Command::State => self.state(),
            Command::Serialize(flags) => self.serialize(flags),
            Command::New => Ok((Session::new(), Reply::ok())),
            Command::Feature(text) => self.asked(query::feature(text)),
            Command::Tags { script, language } => self.asked(query::tags(script, language)),
            Command::Compose(a, b) => self.asked(query::compose(a, b)),
            Command::Decompose(c) => self.asked(query::decompose(c)),
        }
    }

    /// The session as it was, and the answer to a question.
    fn asked(self, reply: Result<Reply, AllocError>) -> Result<(Session, Reply), AllocError> {
        Ok((self, reply?))
    }

    /// The buffer, into which a text is turned.
    fn into_buffer(self) -> hb_buffer_t {
        match self {
            Session::Text(text) => text.into_buffer(),
            Session::Turned(buffer) => buffer,
        }
    }

    fn push(self, text: &str) -> Result<(Session, Reply), AllocError> {
        match self {
            Session::Text(mut buffer) => {
                let reply = Reply::of_bool(buffer.push_str(text)?);
                Ok((Session::Text(buffer), reply))
            }
            Session::Turned(turned) => Ok((Session::Turned(turned), Reply::outside())),
        }
    }

    fn add(self, character: char, cluster: u32) -> Result<(Session, Reply), AllocError> {
        match self {
            Session::Text(mut buffer) => {
                let reply = Reply::of_bool(buffer.add(character, cluster)?);
                Ok((Session::Text(buffer), reply))
            }
            Session::Turned(buffer) => Ok((Session::Turned(buffer), Reply::outside())),
        }
    }

    fn set_level(self, level: BufferClusterLevel) -> (Session, Reply) {
        let session = match self {
            Session::Text(mut buffer) => {
                buffer.set_cluster_level(level);
                Session::Text(buffer)
            }
            Session::Turned(mut buffer) => {
                buffer.cluster_level = level.number();
                Session::Turned(buffer)
            }
        };
        (session, Reply::ok())
    }

    fn set_flags(self, flags: u32) -> (Session, Reply) {
        let flags = BufferFlags::from_bits_retain(flags);
        let session = match self {
            Session::Text(mut buffer) => {
                buffer.set_flags(flags);
                Session::Text(buffer)
            }
            Session::Turned(mut buffer) => {
                buffer.flags = flags;
                Session::Turned(buffer)
            }
        };
        (session, Reply::ok())
    }

    /// Says how many glyphs each side may hold.
    ///
    /// # Requires
    ///
    /// That none holds more.
    fn limit(self, number: usize) -> (Session, Reply) {
        let mut buffer = self.into_buffer();
        if buffer.len() > number || buffer.out_len() > number {
            return (Session::Turned(buffer), Reply::outside());
        }
        buffer.set_max_len(number);
        (Session::Turned(buffer), Reply::ok())
    }

    /// Prints the two lists.
    fn state(self) -> Result<(Session, Reply), AllocError> {
        let buffer = self.into_buffer();
        let text = print_state(&buffer)?;
        Ok((Session::Turned(buffer), Reply::Text(text)))
    }

    fn make(self, call: Call<'_>) -> Result<(Session, Reply), AllocError> {
        let mut buffer = self.into_buffer();
        let reply = Reply::of_answer(make_call(&mut buffer, &call)?);
        Ok((Session::Turned(buffer), reply))
    }

    /// Replaces this many glyphs at the cursor by as many as there are ids.
    fn replace_glyphs(self, num_in: usize, ids: &[u32]) -> Result<(Session, Reply), AllocError> {
        self.make(Call::ReplaceGlyphs(num_in, ids.len(), ids))
    }

    /// Prints the glyphs, with their positions all 0.
    ///
    /// # Requires
    ///
    /// That no output is open, and ids of 16 bits where names or extents are printed.
    fn serialize(self, flags: u8) -> Result<(Session, Reply), AllocError> {
        let flags = flags_of(flags);
        let buffer = self.into_buffer();
        if !may_be_printed(flags, &buffer) {
            return Ok((Session::Turned(buffer), Reply::outside()));
        }
        let (next, text) = print_glyphs(flags, buffer)?;
        Ok((Session::Text(next), Reply::Text(text)))
    }
}

/// The set of flags of a number.
fn flags_of(number: u8) -> SerializeFlags {
    SerializeFlags::from_bits_retain(number)
}

/// The text that begins anew, and the glyphs, with positions that are all 0.
///
/// # Requires
///
/// - `buffer.have_output ≡ false`
fn print_glyphs(
    flags: SerializeFlags,
    buffer: hb_buffer_t,
) -> Result<(UnicodeBuffer, String), AllocError> {
    debug_assert!(!buffer.have_output());
    let mut placed = buffer;
    placed.clear_positions();
    let glyphs = GlyphBuffer::from_buffer(placed);
    let text = glyphs.serialize(&NoGlyphNames, flags)?;
    Ok((glyphs.clear(), text))
}

/// The highest number of a glyph.
const LAST_GLYPH: u32 = 65535;

/// Whether glyphs may be printed under these flags.
fn may_be_printed(flags: SerializeFlags, buffer: &hb_buffer_t) -> bool {
    !buffer.have_output() && (!asks_font(flags) || are_glyphs(buffer.info()))
}

/// Whether names or extents are printed under these flags.
fn asks_font(flags: SerializeFlags) -> bool {
    !flags.contains(SerializeFlags::NO_GLYPH_NAMES) || flags.contains(SerializeFlags::GLYPH_EXTENTS)
}

/// Whether each id is the number of a glyph.
fn are_glyphs(infos: &[hb_glyph_info_t]) -> bool {
    infos.iter().all(|info| info.glyph_id <= LAST_GLYPH)
}
