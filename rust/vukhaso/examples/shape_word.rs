//! Shapes a word with a font, and prints its glyphs: `cargo run --example shape_word FONT WORD`.

use vukhaso::{Face, FaceNames, SerializeFlags, UnicodeBuffer, shape};

fn main() -> Result<(), Box<dyn std::error::Error>> {
    let words: Vec<String> = std::env::args().collect();
    let [_, font, word] = words.as_slice() else {
        return Err("usage: shape_word FONT WORD".into());
    };
    let file = std::fs::read(font)?;
    let face = Face::from_slice(&file, 0).ok_or("no font")?;
    let mut text = UnicodeBuffer::new();
    text.push_str(word)?;
    let glyphs = shape(&face, &[], text)?;
    let names = FaceNames::new(&face)?;
    println!("{}", glyphs.serialize(&names, SerializeFlags::empty())?);
    Ok(())
}
