//! The path that a charstring draws (The Type 2 Charstring Format; OpenType specification, "CFF2 CharString Format").

use crate::outline::curves::draw;
use crate::outline::dict::{Index, number};
use crate::outline::reader::Reader;
use crate::outline::{Pen, Point, Segment};
use vukhaso::internals::font_variations::VariationStore;

/// How many numbers there may be, how deep subroutines may call one another, and how many steps they may take, as HarfBuzz allows.
const MOST_NUMBERS: usize = 513;
const DEEPEST_CALL: u32 = 10;
const MOST_STEPS: u32 = 199_999;

const VSINDEX: u8 = 15;
const BLEND: u8 = 16;
const CALLSUBR: u8 = 10;
const RETURN: u8 = 11;
const ESCAPE: u8 = 12;
const ENDCHAR: u8 = 14;
const CALLGSUBR: u8 = 29;

/// A point, or how far it is to one, in font units: with all digits of the font's fractions.
#[derive(Clone, Copy, Default)]
pub struct Offset {
    pub x: f64,
    pub y: f64,
}

impl Offset {
    pub fn plus(self, other: Offset) -> Offset {
        Offset { x: self.x + other.x, y: self.y + other.y }
    }
}

/// How a glyph ends.
pub enum End {
    Plain,
    Accented(Accented),
    /// A subroutine's: the glyph goes on.
    Return,
}

/// A character of two glyphs, by their codes in the standard encoding (Appendix C, "endchar").
pub struct Accented {
    pub at: Offset,
    pub base: i32,
    pub accent: i32,
}

/// The deltas that charstrings of `CFF2` blend.
struct Variation<'a> {
    store: VariationStore<'a>,
    set: u16,
    coordinates: &'a [i32],
}

pub struct Charstring<'a> {
    local: Index<'a>,
    global: Index<'a>,
    pub numbers: Vec<f64>,
    /// Where the path is.
    pub at: Offset,
    /// By how much all points are moved.
    by: Offset,
    stems: usize,
    mask_size: Option<usize>,
    steps: u32,
    variation: Option<Variation<'a>>,
}

impl<'a> Charstring<'a> {
    pub fn new(local: Index<'a>, global: Index<'a>, by: Offset) -> Self {
        let (numbers, at) = (Vec::new(), Offset::default());
        Charstring { local, global, numbers, at, by, stems: 0, mask_size: None, steps: MOST_STEPS, variation: None }
    }

    /// One of `CFF2`, with the regions that its Private DICT says.
    pub fn varied(self, store: VariationStore<'a>, set: u16, coordinates: &'a [i32]) -> Self {
        Charstring { variation: Some(Variation { store, set, coordinates }), ..self }
    }

    pub fn close(&self, pen: &mut Pen) {
        pen.push(Segment::Close);
    }

    /// Draws; `None` where the charstring is broken or takes too long.
    pub fn run(&mut self, code: &[u8], pen: &mut Pen) -> Option<End> {
        match self.run_part(code, DEEPEST_CALL, pen)? {
            End::Return if self.variation.is_none() => None,
            End::Return => Some(End::Plain),
            end => Some(end),
        }
    }

    fn run_part(&mut self, code: &[u8], depth: u32, pen: &mut Pen) -> Option<End> {
        let mut rest = Reader(code);
        while self.steps > 0 {
            self.steps -= 1;
            if self.variation.is_some() && rest.is_empty() {
                return Some(End::Return);
            }
            match rest.u8()? {
                RETURN => return Some(End::Return),
                ENDCHAR => return Some(self.end()),
                operator @ (CALLSUBR | CALLGSUBR) => {
                    let number = self.pop()? as i32;
                    let called =
                        if operator == CALLSUBR { self.local.subroutine(number) } else { self.global.subroutine(number) }?;
                    let end = self.run_part(called, depth.checked_sub(1)?, pen)?;
                    if !matches!(end, End::Return) {
                        return Some(end);
                    }
                }
                operator => self.step(operator, &mut rest, pen)?,
            }
        }
        None
    }

    fn pop(&mut self) -> Option<f64> {
        self.numbers.pop()
    }

    /// A number, or an operator that neither calls nor ends.
    fn step(&mut self, operator: u8, rest: &mut Reader, pen: &mut Pen) -> Option<()> {
        match operator {
            28 | 32..=254 => return self.push(number(operator, rest)?.into()),
            255 => return self.push(f64::from(rest.i32()?) / 65536.0),
            VSINDEX if self.variation.is_some() => {
                let set = u16::try_from(self.pop()? as i32).ok()?;
                self.variation.as_mut()?.set = set;
            }
            BLEND if self.variation.is_some() => return self.blend(),
            1 | 3 | 18 | 23 => self.stems += self.numbers.len() / 2,
            19 | 20 => {
                self.skip_mask(rest);
                return Some(());
            }
            ESCAPE => draw(self, 256 + u16::from(rest.u8()?), pen)?,
            _ => draw(self, operator.into(), pen)?,
        }
        self.numbers.clear();
        Some(())
    }

    fn push(&mut self, number: f64) -> Option<()> {
        self.numbers.push(number);
        (self.numbers.len() <= MOST_NUMBERS).then_some(())
    }

    /// Passes a mask of the stem hints. One that is cut short is none.
    fn skip_mask(&mut self, rest: &mut Reader) {
        let stems = self.stems + self.numbers.len() / 2;
        let size = *self.mask_size.get_or_insert(stems.div_ceil(8));
        if rest.take(size).is_some() {
            self.numbers.clear();
        }
    }

    fn end(&self) -> End {
        match self.numbers[..] {
            [.., x, y, base, accent] if self.variation.is_none() => {
                End::Accented(Accented { at: Offset { x, y }, base: base as i32, accent: accent as i32 })
            }
            _ => End::Plain,
        }
    }

    /// Adds to some numbers their deltas, which stand behind them, one of each region: those of the first number first. The last
    /// number says how many numbers there are.
    fn blend(&mut self) -> Option<()> {
        let count = usize::try_from(self.pop()? as i32).ok()?;
        let Variation { store, set, coordinates } = self.variation.as_ref()?;
        let regions = usize::from(store.region_count(*set));
        let scalars: Vec<f64> = (0..regions).map(|region| store.region_scalar(*set, region as u16, coordinates).into()).collect();
        let first = self.numbers.len().checked_sub(count.checked_mul(regions + 1)?)?;
        let behind = first + count;
        for place in 0..count {
            let deltas = &self.numbers[behind + place * regions..][..regions];
            let delta: f64 = deltas.iter().zip(&scalars).map(|(delta, scalar)| scalar * delta).sum();
            self.numbers[first + place] += if coordinates.is_empty() { 0.0 } else { delta };
        }
        self.numbers.truncate(behind);
        Some(())
    }

    fn point(&self, at: Offset, pen: &Pen) -> Point {
        let at = at.plus(self.by);
        pen.scaled(Point { x: at.x as f32, y: at.y as f32 })
    }

    pub fn move_by(&mut self, by: Offset, pen: &mut Pen) {
        self.at = self.at.plus(by);
        pen.push(Segment::Move(self.point(self.at, pen)));
    }

    pub fn line_by(&mut self, by: Offset, pen: &mut Pen) {
        self.at = self.at.plus(by);
        pen.push(Segment::Line(self.point(self.at, pen)));
    }

    /// Draws a curve to a point by way of two others.
    pub fn curve_to(&mut self, [first, second, end]: [Offset; 3], pen: &mut Pen) {
        self.at = end;
        pen.push(Segment::Cubic(self.point(first, pen), self.point(second, pen), self.point(end, pen)));
    }
}
