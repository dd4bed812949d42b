//! Opens a font so many times, and shapes a word with it each time where one is given: `open_face FONT ROUNDS [WORD]`.
//! `tools/harfbuzz/opening` counts the instructions of a round, and of the same program with rustybuzz.

use std::hint::black_box;
use vukhaso::rustybuzz::{Face, UnicodeBuffer, shape};

fn main() -> Result<(), Box<dyn std::error::Error>> {
    let words: Vec<String> = std::env::args().collect();
    let [_, font, rounds, word @ ..] = words.as_slice() else {
        return Err("usage: open_face FONT ROUNDS [WORD]".into());
    };
    let file = std::fs::read(font)?;
    for _ in 0..rounds.parse()? {
        let face = Face::from_slice(black_box(&file), 0).ok_or("no font")?;
        black_box(&face);
        if let [word] = word {
            let mut text = UnicodeBuffer::new();
            text.push_str(word);
            text.guess_segment_properties();
            black_box(shape(&face, &[], text));
        }
    }
    Ok(())
}
