//! Reversals of random lists.

use std::io::{self, Write};
use vukhaso::internals::buffer::{_cluster_group_func, UnicodeBuffer, hb_buffer_t};
use vukhaso::memory::AllocError;

const REVERSALS: u32 = 5000;

const SEED: u64 = 1;

/// Prints random lists, each with its kind of reversal, and what that leaves.
pub fn print_reversals(out: &mut impl Write) -> io::Result<()> {
    let mut state = SEED;
    for _ in 0..REVERSALS {
        print_reversal(out, &mut state)?;
    }
    Ok(())
}

fn random_below(state: &mut u64, n: u32) -> u32 {
    *state = state
        .wrapping_mul(6364136223846793005)
        .wrapping_add(1442695040888963407);
    ((*state >> 33) % (n as u64)) as u32
}

/// A list of glyphs with the numbers from 1 on, in random clusters.
fn random_list(state: &mut u64, count: u32) -> Result<UnicodeBuffer, AllocError> {
    let mut text = UnicodeBuffer::new();
    for i in 0..count {
        let id = char::from_u32(i + 1).unwrap_or(' ');
        let _ = text.add(id, random_below(state, 4))?;
    }
    Ok(text)
}

fn print_reversal(out: &mut impl Write, state: &mut u64) -> io::Result<()> {
    let count = random_below(state, 9);
    let mut buffer = random_list(state, count)?.into_buffer();
    buffer.cluster_level = random_below(state, 3);
    let kind = random_below(state, 5);
    let end = random_below(state, count + 1);
    let start = random_below(state, end + 1);
    reverse(&mut buffer, kind, start as usize, end as usize);
    write!(
        out,
        "reversal {kind} {} {start} {end}:",
        buffer.cluster_level
    )?;
    for glyph in buffer.info() {
        write!(
            out,
            " {}={}#{}",
            glyph.glyph_id,
            glyph.cluster,
            glyph.mask & 7
        )?;
    }
    writeln!(out)
}

fn reverse(buffer: &mut hb_buffer_t, kind: u32, start: usize, end: usize) {
    let end = end.min(buffer.len());
    match kind {
        0 => buffer.reverse(),
        1 => buffer.reverse_range(start.min(end), end),
        2 => buffer.reverse_groups(_cluster_group_func, false),
        _ => buffer.reverse_groups(|a, b| a.cluster <= b.cluster, kind == 4),
    }
}
