// Written by tools/plain_rust from crates/fault_tests. Do not edit.

//! A text rendered from end to end.

use crate::fault_tests::run::MOST;
use crate::fault_tests::scenario::{Lost, Scenario};
use crate::fault_tests::seen::same_shaped;
use vukhaso::internals::buffer::{BufferClusterLevel, GlyphBuffer};
use vukhaso::internals::runs::{Answer, Call, RenderFault, render, render_at};
use vukhaso::internals::text::{Feature, Tag};

/// A text with features, and with calls of which one puts out more than it reads.
#[derive(Clone, Copy, Debug)]
pub struct Rendered<'a> {
    pub name: &'a str,
    pub least: u32,
    /// The cluster level, where it is not the default.
    pub level: Option<BufferClusterLevel>,
    pub text: &'a str,
    pub features: &'a [Feature],
    pub calls: &'a [Call<'a>],
}

/// What stands for an answer that is not given yet.
const NONE_YET: Answer = Answer::Outside;

impl Scenario for Rendered<'_> {
    type Ready = (GlyphBuffer, [Answer; MOST]);

    fn name(&self) -> &str {
        self.name
    }

    fn least(&self) -> u32 {
        self.least
    }

    fn prepare(&self) -> Result<(GlyphBuffer, [Answer; MOST]), Lost> {
        let mut answers = [NONE_YET; MOST];
        match self.render(&mut answers) {
            Ok(glyphs) => Ok((glyphs, answers)),
            Err(RenderFault::Memory { .. }) => Err(Lost::Memory),
            Err(_) => Err(Lost::Refusal),
        }
    }

    fn watch(&self, ready: (GlyphBuffer, [Answer; MOST])) -> Result<(), Lost> {
        let (whole, wanted) = ready;
        let mut answers = [NONE_YET; MOST];
        let glyphs = self.rendered(&wanted, &mut answers)?;
        if answers != wanted {
            return Err(Lost::Answers);
        }
        if !same_shaped(&glyphs, &whole) {
            return Err(Lost::State);
        }
        Ok(())
    }
}

impl Rendered<'_> {
    fn render(&self, answers: &mut [Answer; MOST]) -> Result<GlyphBuffer, RenderFault> {
        let count = self.calls.len();
        if count > MOST {
            return Err(RenderFault::OutputLeftOpen);
        }
        let answers = &mut answers[..count];
        match self.level {
            None => render(self.text, self.features, self.calls, answers),
            Some(level) => render_at(level, self.text, self.features, self.calls, answers),
        }
    }

    /// Renders the text.
    ///
    /// # Errors
    ///
    /// Where a call runs out of memory, those before it have their answers, and the text is rendered again.
    fn rendered(
        &self,

        wanted: &[Answer; MOST],
        answers: &mut [Answer; MOST],
    ) -> Result<GlyphBuffer, Lost> {
        let at = match self.render(answers) {
            Ok(glyphs) => return Ok(glyphs),
            Err(RenderFault::Memory { at }) => at.unwrap_or(0),
            Err(_) => return Err(Lost::Refusal),
        };
        if !are_begun(answers, wanted, at) {
            return Err(Lost::EarlierAnswers);
        }
        self.again(answers)
    }

    /// # Errors
    ///
    /// Renders the text again, after a call that ran out of memory.
    fn again(&self, answers: &mut [Answer; MOST]) -> Result<GlyphBuffer, Lost> {
        *answers = [NONE_YET; MOST];
        self.render(answers).map_err(|_| Lost::Memory)
    }
}

/// Whether the answers up to the call that ran out of memory are given, and none after them.
fn are_begun(answers: &[Answer; MOST], wanted: &[Answer; MOST], at: usize) -> bool {
    answers
        .iter()
        .zip(wanted)
        .enumerate()
        .all(|(i, (answer, wanted))| {
            if i < at {
                answer == wanted
            } else {
                *answer == NONE_YET
            }
        })
}

const KERN: Feature = Feature {
    tag: Tag(0x6B65_726E),
    value: 1,
    start: 1,
    end: 4,
};

const LIGA: Feature = Feature {
    tag: Tag(0x6C69_6761),
    value: 0,
    start: 0,
    end: 4_294_967_295,
};

pub static RENDERED: [Rendered<'static>; 3] = [
    Rendered {
        name: "render with features",
        least: 2,
        level: None,
        text: "abcdef",
        features: &[KERN, LIGA, KERN],
        calls: &[
            Call::ClearOutput,
            Call::NextGlyphs(2),
            Call::MergeClusters(2, 4),
            Call::DeleteGlyph,
            Call::Sync,
        ],
    },
    Rendered {
        name: "render with a replacement that grows",
        least: 6,
        level: None,
        text: "abcdef",
        features: &[KERN],
        calls: &[
            Call::ClearOutput,
            Call::NextGlyph,
            Call::ReplaceGlyphs(2, 5, &[5, 6, 7, 8, 9]),
            Call::MoveTo(0),
            Call::NextGlyphs(3),
            Call::Sync,
        ],
    },
    Rendered {
        name: "render_at with a replacement that grows",
        least: 6,
        level: Some(BufferClusterLevel::Graphemes),
        text: "abcdef",
        features: &[LIGA, KERN],
        calls: &[
            Call::ClearOutput,
            Call::MergeGraphemeClusters(0, 2),
            Call::ReplaceGlyphs(2, 5, &[5, 6, 7, 8, 9]),
            Call::MoveTo(0),
            Call::NextGlyphs(3),
            Call::Sync,
        ],
    },
];
