//! Random glyphs and calls.

use crate::two_lists::{Glyph, Model};
use vukhaso::{Call, hb_glyph_info_t};

/// Numbers by the generator xorshift64*.
pub struct Random(u64);

impl Random {
    pub fn of(seed: u64) -> Random {
        Random(seed.wrapping_mul(0x9E37_79B9_7F4A_7C15) | 1)
    }

    pub fn below(&mut self, n: usize) -> usize {
        self.0 ^= self.0 >> 12;
        self.0 ^= self.0 << 25;
        self.0 ^= self.0 >> 27;
        (self.0.wrapping_mul(0x2545_F491_4F6C_DD1D) >> 33) as usize % n
    }

    fn one_in(&mut self, n: usize) -> bool {
        self.below(n) == 0
    }

    /// A call that mostly meets its condition.
    pub fn call(&mut self, model: &Model) -> Call<'static> {
        const IDS: &[u32] = &[501, 502, 65_536, 504];
        let n = model.len() + 2;
        let (mut a, mut b) = (self.below(n), self.below(n));
        if !self.one_in(4) {
            (a, b) = (a.min(b), a.max(b));
        }
        let (from, to) = (
            (!self.one_in(9)).then_some(a),
            (!self.one_in(9)).then_some(b),
        );
        match self.below(27) {
            0 | 1 => Call::ClearOutput,
            2..=5 => Call::NextGlyph,
            6 => Call::NextGlyphs(self.below(5)),
            7 => Call::SkipGlyph,
            8 => Call::ReplaceGlyph(self.below(900) as u32),
            9..=11 => Call::ReplaceGlyphs(self.below(4), self.below(5), IDS),
            12 => Call::OutputGlyph(self.below(900) as u32),
            13 => Call::CopyGlyph,
            14 => Call::OutputInfo(hb_glyph_info_t {
                glyph_id: 9,
                mask: 5,
                cluster: 3,
                var1: 1,
                var2: 2,
            }),
            15 => Call::MoveTo(self.below(model.out.len() + model.input.len() + 2)),
            16 => Call::Sync,
            17 => Call::DeleteGlyph,
            18 | 19 => Call::MergeClusters(a, b),
            20 => Call::MergeOutClusters(a, b),
            21 => Call::MergeGraphemeClusters(a, b),
            22 => Call::UnsafeToBreak(from, to),
            23 => Call::UnsafeToBreakFromOutbuffer(from, to),
            24 => Call::SafeToInsertTatweel(from, to),
            25 => Call::UnsafeToConcat(from, to),
            _ => Call::UnsafeToConcatFromOutbuffer(from, to),
        }
    }

    /// Some glyphs whose clusters rise or fall, with a few out of order.
    pub fn glyphs(&mut self) -> Vec<Glyph> {
        let (falls, mut cluster) = (self.one_in(2), 20);
        (1..=self.below(12) as u32)
            .map(|id| {
                let step = self.below(3) as u32;
                cluster = if falls {
                    cluster - step.min(cluster)
                } else {
                    cluster + step
                };
                if self.one_in(8) {
                    cluster = self.below(30) as u32;
                }
                Glyph {
                    id,
                    mask: self.below(16) as u32,
                    cluster,
                    var1: id,
                    var2: 7,
                }
            })
            .collect()
    }
}
