// Written by tools/plain_rust from crates/shaping_session. Do not edit.

//! What a command is answered with.

use vukhaso::internals::runs::Answer;
use vukhaso::memory::String;

/// The text of an answer.
#[derive(Debug)]
pub enum Reply {
    /// One of the program's own words.
    Word(&'static str),
    /// A text that was made for this answer.
    Text(String),
}

impl Reply {
    /// To a command whose condition does not hold.
    ///
    /// # Proved
    ///
    /// ```text
    /// ensures { reply_text result ≡ codes "outside" }
    /// ```
    #[inline]
    pub fn outside() -> Reply {
        Reply::Word("outside")
    }

    /// To a command that only says how the text is to be treated, or begins a new one.
    ///
    /// # Proved
    ///
    /// ```text
    /// ensures { reply_text result ≡ codes "ok" }
    /// ```
    #[inline]
    pub fn ok() -> Reply {
        Reply::Word("ok")
    }

    /// To a question that has no answer.
    ///
    /// # Proved
    ///
    /// ```text
    /// ensures { reply_text result ≡ codes "none" }
    /// ```
    #[inline]
    pub fn none() -> Reply {
        Reply::Word("none")
    }

    /// To a command that adds to the text: whether it did.
    ///
    /// # Proved
    ///
    /// ```text
    /// ensures { reply_text result ≡ truth_text done }
    /// ```
    #[inline]
    pub fn of_bool(done: bool) -> Reply {
        Reply::Word(if done { "true" } else { "false" })
    }

    /// To a call.
    ///
    /// # Proved
    ///
    /// ```text
    /// ensures { reply_text result ≡ answer_text answer }
    /// ```
    #[inline]
    pub fn of_answer(answer: Answer) -> Reply {
        Reply::Word(match answer {
            Answer::Done => "done",
            Answer::Refused => "refused",
            Answer::Outside => "outside",
        })
    }

    /// # Proved
    ///
    /// ```text
    /// ensures { result.now ≡ reply_text self.now }
    /// ```
    #[inline]
    pub fn as_str(&self) -> &str {
        match self {
            Reply::Word(word) => word,
            Reply::Text(text) => text.as_str(),
        }
    }
}
