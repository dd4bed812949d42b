//! Random lists of calls beside a plain model of two lists, which was written apart from the library: what each call
//! answers, and the glyphs in the end. With overflow checks, as tests are built.

mod random;
mod two_lists;

use crate::random::Random;
use crate::two_lists::{Glyph, Model};
use vukhaso::{
    Answer, BufferClusterLevel, BufferFlags, Call, RenderFault, UnicodeBuffer, hb_buffer_t,
    hb_glyph_info_t, render_at, replay,
};

const ROUNDS: u64 = 10_000;

fn seen(infos: &[hb_glyph_info_t]) -> Vec<Glyph> {
    infos.iter().map(Glyph::from).collect()
}

/// A buffer of these glyphs, with no output open.
fn buffer_of(glyphs: &[Glyph]) -> hb_buffer_t {
    let mut text = UnicodeBuffer::new();
    for glyph in glyphs {
        assert_eq!(text.add('a', glyph.cluster), Ok(true));
    }
    let mut buffer = text.into_buffer();
    for (info, glyph) in buffer.info_slice_mut().iter_mut().zip(glyphs) {
        (info.glyph_id, info.mask) = (glyph.id, glyph.mask);
        (info.var1, info.var2) = (glyph.var1, glyph.var2);
    }
    buffer
}

#[test]
fn lists_of_calls_on_glyphs() {
    for seed in 1..=ROUNDS {
        let mut random = Random::of(seed);
        let input = random.glyphs();
        let mut buffer = buffer_of(&input);
        buffer.cluster_level = random.below(4) as u32;
        buffer.flags = BufferFlags::from_bits_retain([0, 0x40, 0x80, 0xC0][random.below(4)]);
        let mut model = Model::new(input, buffer.cluster_level, buffer.flags);
        for turn in 0..random.below(40) {
            let call = random.call(&model);
            let mut answers = [Answer::Refused];
            replay(&mut buffer, &[call], &mut answers).expect("memory");
            let what = format!("seed {seed}, turn {turn}: {call:?}");
            assert_eq!(answers[0], model.make(&call), "{what}");
            assert_sides(&buffer, &model, &what);
        }
    }
}

/// The buffer has the two lists of the model, and stands where it does.
fn assert_sides(buffer: &hb_buffer_t, model: &Model, what: &str) {
    assert_eq!(seen(buffer.out_info()), model.out, "{what}");
    assert_eq!(seen(buffer.info()), model.input, "{what}");
    let place = (buffer.have_output(), buffer.idx());
    assert_eq!(place, (model.open, model.idx), "{what}");
}

/// The characters of a text as a buffer takes them.
fn glyphs_of(text: &str) -> Vec<Glyph> {
    let glyph = |(place, character): (usize, char)| Glyph {
        id: character as u32,
        cluster: place as u32,
        ..Glyph::default()
    };
    text.char_indices().map(glyph).collect()
}

/// Some calls, each with the answer that the model gives to it.
fn calls_of(random: &mut Random, model: &mut Model) -> Vec<(Call<'static>, Answer)> {
    let count = random.below(20);
    let mut answered = || {
        let call = random.call(model);
        (call, model.make(&call))
    };
    (0..count).map(|_| answered()).collect()
}

#[test]
fn texts_are_rendered() {
    let levels = [0, 1, 2, 3].map(BufferClusterLevel::of_number);
    for seed in 1..=ROUNDS {
        let mut random = Random::of(seed ^ 0xD1B5_4A32);
        let level = random.below(4);
        let text: String = (0..random.below(10))
            .map(|_| ['a', 'é', '漢', '😀', 'ل', '\u{301}'][random.below(6)])
            .collect();
        let mut model = Model::new(glyphs_of(&text), level as u32, BufferFlags::empty());
        let (calls, wanted): (Vec<_>, Vec<_>) =
            calls_of(&mut random, &mut model).into_iter().unzip();
        let mut answers = vec![Answer::Refused; calls.len()];
        let rendered = render_at(levels[level], &text, &[], &calls, &mut answers);
        assert_eq!(answers, wanted, "seed {seed}");
        let left = rendered.map(|glyphs| seen(glyphs.glyph_infos()));
        let expected = if model.open {
            Err(RenderFault::OutputLeftOpen)
        } else {
            Ok(model.input)
        };
        assert_eq!(left, expected, "seed {seed}");
    }
}
