//! Shapes the lines of a text with a font, again and again, and prints the least time of a round in microseconds, how many
//! glyphs there were, and the sum of their advances: `cargo run --release --example shape_lines FONT TEXT ROUNDS [faces]`.
//! With `faces` each round makes a face of its own.

use std::time::{Duration, Instant};
use vukhaso::{Face, GlyphBuffer, ShapePlan, UnicodeBuffer, shape_with_plan};

/// How many glyphs there were, and the sum of their advances.
type Sums = (usize, i64);

/// A face with the plan of the line before, and the buffer that is used for each line.
struct Shaper<'a> {
    face: Face<'a>,
    plan: Option<ShapePlan>,
    buffer: Option<UnicodeBuffer>,
}

impl<'a> Shaper<'a> {
    fn new(file: &'a [u8]) -> Result<Self, Box<dyn std::error::Error>> {
        let face = Face::from_slice(file, 0).ok_or("no font")?;
        Ok(Shaper {
            face,
            plan: None,
            buffer: Some(UnicodeBuffer::new()),
        })
    }

    /// Shapes a line, by the plan of the line before it if that is for it too.
    fn shape(&mut self, line: &str) -> Result<GlyphBuffer, Box<dyn std::error::Error>> {
        let mut buffer = self.buffer.take().unwrap_or_default();
        buffer.push_str(line)?;
        buffer.guess_segment_properties();
        let plan = match &mut self.plan {
            Some(plan) if plan.is_for(&self.face, &[], &buffer) => plan,
            plan => plan.insert(plan_of(&self.face, &buffer)?),
        };
        Ok(shape_with_plan(&self.face, plan, buffer)?)
    }

    fn shape_all(&mut self, text: &str) -> Result<Sums, Box<dyn std::error::Error>> {
        let (mut count, mut sum) = (0, 0);
        for line in text.lines() {
            let glyphs = self.shape(line)?;
            let positions = glyphs.glyph_positions();
            count += glyphs.len();
            sum += positions
                .iter()
                .map(|at| i64::from(at.x_advance))
                .sum::<i64>();
            self.buffer = Some(glyphs.clear());
        }
        Ok((count, sum))
    }
}

/// The plan for a text.
fn plan_of(face: &Face, buffer: &UnicodeBuffer) -> Result<ShapePlan, Box<dyn std::error::Error>> {
    let script = Some(buffer.script());
    Ok(ShapePlan::new(
        face,
        buffer.direction(),
        script,
        buffer.language(),
        &[],
    )?)
}

fn main() -> Result<(), Box<dyn std::error::Error>> {
    let words: Vec<String> = std::env::args().collect();
    let [_, font, text, rounds, more @ ..] = words.as_slice() else {
        return Err("usage: shape_lines FONT TEXT ROUNDS [faces]".into());
    };
    let makes_faces = more.iter().any(|word| word == "faces");
    let file = std::fs::read(font)?;
    let text = std::fs::read_to_string(text)?;
    let mut kept = Shaper::new(&file)?;
    let mut least = Duration::MAX;
    let mut sums = (0, 0);
    for _round in 0..rounds.parse::<u32>()? {
        let start = Instant::now();
        sums = if makes_faces {
            Shaper::new(&file)?.shape_all(&text)?
        } else {
            kept.shape_all(&text)?
        };
        least = least.min(start.elapsed());
    }
    let (count, sum) = sums;
    println!("{} {count} {sum}", least.as_micros());
    Ok(())
}
