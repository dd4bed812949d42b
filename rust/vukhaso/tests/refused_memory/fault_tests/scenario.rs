// Written by tools/plain_rust from crates/fault_tests. Do not edit.

//! A scenario: what is prepared, the calls that are watched, and what may be lost.

use std::io;
use vukhaso::internals::buffer::LanguageError;
use vukhaso::memory::AllocError;

/// What was not as promised.
#[derive(Clone, Copy, PartialEq, Eq, Debug)]
pub enum Lost {
    /// A call ran out of memory and then again, or where it may not ask for any.
    Memory,
    /// A call that may not be refused was refused, or one that has to be was not.
    Refusal,
    /// After a call ran out of memory the answers are not those of the calls before it.
    EarlierAnswers,
    /// After a call ran out of memory something is not as the calls before it left it.
    EarlierState,
    /// The answers are not those of a run that was not disturbed.
    Answers,
    /// What stands in the end is not what a run leaves that was not disturbed.
    State,
}

impl Lost {
    /// What is printed of it.
    fn words(self) -> &'static str {
        match self {
            Lost::Memory => "out of memory where there is some",
            Lost::Refusal => "another answer than done or refused",
            Lost::EarlierAnswers => "answers of the calls before",
            Lost::EarlierState => "what the calls before left",
            Lost::Answers => "answers in the end",
            Lost::State => "what stands in the end",
        }
    }
}

impl From<AllocError> for Lost {
    fn from(_: AllocError) -> Lost {
        Lost::Memory
    }
}

impl From<LanguageError> for Lost {
    fn from(_: LanguageError) -> Lost {
        Lost::Memory
    }
}

/// Something that is watched while memory is refused.
pub trait Scenario {
    /// What is prepared before the calls that are watched.
    type Ready;

    /// The calls, and where they are made.
    ///
    /// # Proved
    ///
    /// That it returns.
    fn name(&self) -> &str;

    /// The fewest allocations that the calls ask for. At 0 they ask for none.
    ///
    /// # Proved
    ///
    /// That it returns.
    fn least(&self) -> u32;

    /// Prepares all that the calls need.
    ///
    /// # Errors
    ///
    /// It may run out of memory, and is then begun anew. `Err`: the clauses below say when.
    ///
    /// # Proved
    ///
    /// That it returns.
    fn prepare(&self) -> Result<Self::Ready, Lost>;

    /// Makes the calls.
    ///
    /// # Errors
    ///
    /// One that runs out of memory has changed nothing, and is then made again. `Err`: the clauses below
    /// say when.
    ///
    /// # Proved
    ///
    /// That it returns.
    fn watch(&self, ready: Self::Ready) -> Result<(), Lost>;
}

/// How often a preparation is begun. One allocation is refused in a run of the program, so the second try is done.
const TRIES: u32 = 3;

fn prepared<S: Scenario>(scenario: &S) -> Result<S::Ready, Lost> {
    for _ in 0..TRIES {
        match scenario.prepare() {
            Err(Lost::Memory) => {}
            other => return other,
        }
    }
    Err(Lost::Memory)
}
