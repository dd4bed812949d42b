//! What stands before answers.

use crate::Fail;
use vukhaso::internals::line_formats::heads::{Shown, head};

/// Whether the text, the characters and the number are shown, and what stands before the answer to line 12.
static HEADS: [(bool, bool, bool, &str); 5] = [
    (false, false, false, ""),
    (true, false, false, "(ab)\n"),
    (false, true, false, "<a>\n"),
    (false, false, true, "12: "),
    (true, true, true, "12: (ab)\n12: <a>\n12: "),
];

#[test]
fn what_is_shown_stands_before_an_answer() -> Result<(), Fail> {
    for (text, characters, number, wanted) in &HEADS {
        let shown = Shown {
            text: *text,
            characters: *characters,
            number: *number,
        };
        let written = head(shown, 12, b"ab", b"<a>")?;
        assert!(written.as_slice() == wanted.as_bytes(), "{wanted}");
    }
    Ok(())
}
