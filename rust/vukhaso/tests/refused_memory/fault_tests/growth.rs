// Written by tools/plain_rust from crates/fault_tests. Do not edit.

//! Texts that grow step by step.

use crate::fault_tests::beginning::begun_text_with_room;
use crate::fault_tests::scenario::{Lost, Scenario};
use crate::fault_tests::seen::{same_buffers, same_texts};
use vukhaso::internals::buffer::{UnicodeBuffer, hb_buffer_t};
use vukhaso::memory::AllocError;

/// A call that makes a text grow.
#[derive(Clone, Copy, Debug)]
pub enum Step<'a> {
    Push(&'a str),
    Add(char, u32),
}

/// Steps that make a text grow.
#[derive(Clone, Copy, Debug)]
pub struct Growth<'a> {
    pub name: &'a str,
    pub least: u32,
    /// For how many glyphs room is made before.
    pub room: usize,
    pub steps: &'a [Step<'a>],
    /// Whether the text is looked into where a step runs out of memory, in place of going on.
    pub stops: bool,
}

impl Scenario for Growth<'_> {
    type Ready = (UnicodeBuffer, hb_buffer_t);

    fn name(&self) -> &str {
        self.name
    }

    fn least(&self) -> u32 {
        self.least
    }

    fn prepare(&self) -> Result<(UnicodeBuffer, hb_buffer_t), Lost> {
        let whole = self.text_after(self.steps)?;
        Ok((begun_text_with_room(self.room)?, whole.into_buffer()))
    }

    fn watch(&self, ready: (UnicodeBuffer, hb_buffer_t)) -> Result<(), Lost> {
        let (mut text, whole) = ready;
        match self.take_steps(&mut text)? {
            Some(twin) => expect_same(text, &twin.into_buffer(), Lost::EarlierState),
            None => expect_same(text, &whole, Lost::State),
        }
    }
}

impl Growth<'_> {
    /// Takes the steps.
    ///
    /// # Errors
    ///
    /// Where one runs out of memory and the scenario stops there, it gives the text that is expected.
    fn take_steps(&self, text: &mut UnicodeBuffer) -> Result<Option<UnicodeBuffer>, Lost> {
        for (i, step) in self.steps.iter().enumerate() {
            match grow(text, step) {
                Ok(true) => {}
                Ok(false) => return Err(Lost::Refusal),
                Err(_) if self.least == 0 => return Err(Lost::Memory),
                Err(_) => {
                    let twin = self.text_after(&self.steps[..i])?;
                    if self.stops {
                        return Ok(Some(twin));
                    }
                    grow_again(text, &twin, step)?;
                }
            }
        }
        Ok(None)
    }

    /// The text after these steps.
    fn text_after(&self, steps: &[Step<'_>]) -> Result<UnicodeBuffer, Lost> {
        let mut text = begun_text_with_room(self.room)?;
        for step in steps {
            if !grow(&mut text, step)? {
                return Err(Lost::Refusal);
            }
        }
        Ok(text)
    }
}

fn grow(text: &mut UnicodeBuffer, step: &Step<'_>) -> Result<bool, AllocError> {
    match *step {
        Step::Push(more) => text.push_str(more),
        Step::Add(character, cluster) => text.add(character, cluster),
    }
}

/// # Errors
///
/// Answers `lost` where a text differs from its twin, in which no step ran out of memory.
fn expect_same(text: UnicodeBuffer, twin: &hb_buffer_t, lost: Lost) -> Result<(), Lost> {
    if same_buffers(&text.into_buffer(), twin) {
        return Ok(());
    }
    Err(lost)
}

/// # Errors
///
/// Takes a step again that ran out of memory.
fn grow_again(text: &mut UnicodeBuffer, twin: &UnicodeBuffer, step: &Step<'_>) -> Result<(), Lost> {
    if !same_texts(text, twin) {
        return Err(Lost::EarlierState);
    }
    if !grow(text, step)? {
        return Err(Lost::Refusal);
    }
    Ok(())
}

/// Texts that are longer from step to step.
const PUSHES: &[Step<'static>] = &[
    Step::Push("a"),
    Step::Push(""),
    Step::Push("bcd"),
    Step::Push("efghijklmn"),
    Step::Push("The quick brown fox jumps over the lazy dog."),
];

/// A text, and characters one by one.
const ADDED: &[Step<'static>] = &[
    Step::Push("ab"),
    Step::Add('c', 7),
    Step::Add('d', 7),
    Step::Add('e', 8),
    Step::Add('f', 9),
    Step::Add('g', 9),
    Step::Add('h', 9),
    Step::Add('i', 9),
    Step::Add('j', 4_294_967_295),
];

pub static GROWTHS: [Growth<'static>; 6] = [
    Growth {
        name: "push_str, again and again",
        least: 6,
        room: 0,
        steps: PUSHES,
        stops: false,
    },
    Growth {
        name: "push_str, up to the one that runs out of memory",
        least: 6,
        room: 0,
        steps: PUSHES,
        stops: true,
    },
    Growth {
        name: "add, again and again",
        least: 4,
        room: 0,
        steps: ADDED,
        stops: false,
    },
    Growth {
        name: "add, up to the one that runs out of memory",
        least: 4,
        room: 0,
        steps: ADDED,
        stops: true,
    },
    Growth {
        name: "push_str within the room that ensure made",
        least: 0,
        room: 60,
        steps: PUSHES,
        stops: false,
    },
    Growth {
        name: "add within the room that ensure made",
        least: 0,
        room: 10,
        steps: ADDED,
        stops: false,
    },
];
