// Written by tools/plain_rust from crates/fault_tests. Do not edit.

//! Lists of calls on a buffer.

use crate::fault_tests::beginning::begun_buffer;
use crate::fault_tests::scenario::{Lost, Scenario};
use crate::fault_tests::seen::same_buffers;
use vukhaso::internals::buffer::hb_buffer_t;
use vukhaso::internals::runs::{Answer, Call, replay};
use vukhaso::memory::{AllocError, Vec};

/// The most calls of a list.
pub const MOST: usize = 12;

/// The cluster levels by their numbers: each list of calls is made at each.
const LEVELS: [u32; 4] = [0, 1, 2, 3];

/// What stands for an answer that is not given yet: no call of a list is outside its condition.
const NONE_YET: Answer = Answer::Outside;

/// A list of calls on a buffer over a text. Those before it are part of the preparation.
#[derive(Clone, Copy, Debug)]
pub struct Run<'a> {
    pub name: &'a str,
    pub least: u32,
    pub text: &'a str,
    /// How many glyphs each side may hold.
    pub max_len: usize,
    /// For how many glyphs room is made in the preparation.
    pub ensured: usize,
    pub before: &'a [Call<'a>],
    /// For how many glyphs room is made, step by step, before the calls.
    pub rooms: &'a [usize],
    pub calls: &'a [Call<'a>],
    /// Whether positions are turned on after the calls.
    pub is_placed: bool,
}

/// What is not said of a run.
pub const PLAIN: Run<'static> = Run {
    name: "",
    least: 0,
    text: "abcdefghij",
    max_len: 99,
    ensured: 0,
    before: &[],
    rooms: &[],
    calls: &[],
    is_placed: false,
};

/// A buffer before the calls, and what an undisturbed run leaves and answers.
#[derive(Debug)]
pub struct Begun {
    level: u32,
    buffer: hb_buffer_t,
    whole: hb_buffer_t,
    answers: [Answer; MOST],
}

impl Scenario for Run<'_> {
    type Ready = Vec<Begun>;

    fn name(&self) -> &str {
        self.name
    }

    fn least(&self) -> u32 {
        self.least
    }

    fn prepare(&self) -> Result<Vec<Begun>, Lost> {
        let mut all = Vec::new();
        for level in LEVELS {
            all.push(self.begun(level)?)?;
        }
        Ok(all)
    }

    fn watch(&self, ready: Vec<Begun>) -> Result<(), Lost> {
        for mut begun in ready {
            self.watch_one(&mut begun)?;
        }
        Ok(())
    }
}

impl Run<'_> {
    fn begun(&self, level: u32) -> Result<Begun, Lost> {
        let mut begun = Begun {
            level,
            buffer: self.buffer_at(level)?,
            whole: self.buffer_at(level)?,
            answers: [NONE_YET; MOST],
        };
        self.make_all(&mut begun.whole, &mut begun.answers)?;
        Ok(begun)
    }

    /// Makes the calls, undisturbed.
    fn make_all(&self, buffer: &mut hb_buffer_t, answers: &mut [Answer; MOST]) -> Result<(), Lost> {
        make_both(buffer, self.rooms, self.calls, answers)?;
        self.set_positions(buffer);
        Ok(())
    }

    /// The buffer before the calls.
    fn buffer_at(&self, level: u32) -> Result<hb_buffer_t, Lost> {
        let mut buffer = begun_buffer(self.text, level)?;
        self.make_ready(&mut buffer)?;
        Ok(buffer)
    }

    /// Makes room, and the calls before those that are watched.
    fn make_ready(&self, buffer: &mut hb_buffer_t) -> Result<(), Lost> {
        let mut answers = [NONE_YET; MOST];
        limit(buffer, self.max_len)?;
        make_rooms(buffer, &[self.ensured])?;
        make(buffer, self.before, &mut answers)
    }

    /// The buffer after some of the steps that make room, and after some calls, whose answers are kept.
    fn twin_at(
        &self,

        level: u32,
        rooms: &[usize],
        calls: &[Call<'_>],
        answers: &mut [Answer; MOST],
    ) -> Result<hb_buffer_t, Lost> {
        let mut twin = self.buffer_at(level)?;
        make_both(&mut twin, rooms, calls, answers)?;
        Ok(twin)
    }

    /// Turns positions on where that is part of the run.
    fn set_positions(&self, buffer: &mut hb_buffer_t) {
        if self.is_placed && !buffer.have_output() {
            buffer.clear_positions();
        }
    }

    fn watch_one(&self, begun: &mut Begun) -> Result<(), Lost> {
        let buffer = &mut begun.buffer;
        self.watch_rooms(begun.level, buffer)?;
        let answers = self.watch_calls(begun.level, buffer)?;
        self.set_positions(buffer);
        if answers != begun.answers {
            return Err(Lost::Answers);
        }
        if !same_buffers(buffer, &begun.whole) {
            return Err(Lost::State);
        }
        Ok(())
    }

    /// Makes room, step by step.
    fn watch_rooms(&self, level: u32, buffer: &mut hb_buffer_t) -> Result<(), Lost> {
        for (i, size) in self.rooms.iter().enumerate() {
            let fits = *size <= buffer.max_len();
            match buffer.ensure(*size) {
                Ok(done) if done == fits => {}
                Ok(_) => return Err(Lost::Refusal),
                Err(_) => {
                    let mut none = [NONE_YET; MOST];
                    let twin = self.twin_at(level, &self.rooms[..i], &[], &mut none)?;
                    self.is_kept(buffer, &twin)?;
                    make_rooms(buffer, &[*size])?;
                }
            }
        }
        Ok(())
    }

    /// Makes the calls, and gives their answers.
    fn watch_calls(&self, level: u32, buffer: &mut hb_buffer_t) -> Result<[Answer; MOST], Lost> {
        let mut answers = [NONE_YET; MOST];
        let Some(at) = make_from(buffer, self.calls, 0, &mut answers)? else {
            return Ok(answers);
        };
        self.watch_stop(level, at, buffer, &answers)?;
        match make_from(buffer, self.calls, at, &mut answers)? {
            None => Ok(answers),
            Some(_) => Err(Lost::Memory),
        }
    }

    /// # Errors
    ///
    /// After a call that ran out of memory: whether the calls before it have their answers, and no call
    /// after them.
    fn watch_stop(
        &self,

        level: u32,
        at: usize,
        buffer: &hb_buffer_t,
        answers: &[Answer; MOST],
    ) -> Result<(), Lost> {
        let Some(calls) = self.calls.get(..at) else {
            return Err(Lost::EarlierAnswers);
        };
        let mut earlier = [NONE_YET; MOST];
        let twin = self.twin_at(level, self.rooms, calls, &mut earlier)?;
        if *answers != earlier {
            return Err(Lost::EarlierAnswers);
        }
        self.is_kept(buffer, &twin)
    }

    /// # Errors
    ///
    /// After a call that ran out of memory: whether it may ask for any, and the buffer stands as the calls
    /// before it left it.
    fn is_kept(&self, buffer: &hb_buffer_t, twin: &hb_buffer_t) -> Result<(), Lost> {
        if self.least == 0 {
            return Err(Lost::Memory);
        }
        if !same_buffers(buffer, twin) {
            return Err(Lost::EarlierState);
        }
        Ok(())
    }
}

/// Sets how many glyphs each side may hold.
fn limit(buffer: &mut hb_buffer_t, max_len: usize) -> Result<(), Lost> {
    if buffer.len() > max_len || buffer.out_len() > max_len {
        return Err(Lost::Refusal);
    }
    buffer.set_max_len(max_len);
    Ok(())
}

fn make_rooms(buffer: &mut hb_buffer_t, rooms: &[usize]) -> Result<(), AllocError> {
    for size in rooms {
        let _ = buffer.ensure(*size)?;
    }
    Ok(())
}

/// Makes room, step by step, and then all calls.
fn make_both(
    buffer: &mut hb_buffer_t,
    rooms: &[usize],
    calls: &[Call<'_>],
    answers: &mut [Answer; MOST],
) -> Result<(), Lost> {
    make_rooms(buffer, rooms)?;
    make(buffer, calls, answers)
}

/// Makes all calls, and keeps their answers. None may be outside its condition.
fn make(
    buffer: &mut hb_buffer_t,
    calls: &[Call<'_>],
    answers: &mut [Answer; MOST],
) -> Result<(), Lost> {
    if make_from(buffer, calls, 0, answers)?.is_some() {
        return Err(Lost::Memory);
    }
    match answers.get(..calls.len()) {
        Some(answers) if !answers.contains(&NONE_YET) => Ok(()),
        _ => Err(Lost::Refusal),
    }
}

/// Makes the calls from a place on, and keeps their answers.
///
/// # Errors
///
/// The place of the call that runs out of memory, if one does.
fn make_from(
    buffer: &mut hb_buffer_t,
    calls: &[Call<'_>],
    from: usize,
    answers: &mut [Answer; MOST],
) -> Result<Option<usize>, Lost> {
    let count = calls.len();
    if count > MOST || from > count {
        return Err(Lost::Answers);
    }
    match replay(buffer, &calls[from..], &mut answers[from..count]) {
        Ok(()) => Ok(None),
        Err(stopped) => Ok(Some(stopped.at.saturating_add(from))),
    }
}
