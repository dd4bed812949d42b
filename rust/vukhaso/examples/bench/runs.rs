//! The workloads that are asked for, at each size.

use crate::anyhow::Result;
use crate::shaping_bench::item::{PassItem, TextItem};
use crate::shaping_bench::measuring::{Item, measure};
use crate::shaping_bench::shaper_passes::ShaperItem;
use crate::shaping_bench::shaper_tables::Tables;
use crate::shaping_bench::tags::{TagsItem, long_keys, pairs, rows};
use crate::shaping_bench::texts::{
    FEATURES, FeaturesItem, NewTextItem, ReusedTextItem, mixed_text,
};
use crate::shaping_bench::workload::{WORKLOADS, Workload};
use vukhaso::Tag;
use vukhaso::unicode_tables::UnicodeRows;

/// How many glyphs the lists have.
const SIZES: [usize; 3] = [100, 10_000, 1_000_000];

/// As many glyphs as a run has at least: small lists run in a batch, so that the clock's own cost does not show.
const BATCH_GLYPHS: usize = 6400;

/// The longest a run on a larger list may be foreseen to take, in nanoseconds.
const LONGEST_RUN: u128 = 5_000_000_000;

/// The one row of a short table.
const ONE_ROW: [(&str, Tag); 1] = [("ml", Tag(0x4D41_4C20))];

/// Measures the workloads whose names have one of these parts in them, or with the part `all` every one.
pub fn measure_wanted(parts: &[String]) -> Result<()> {
    let mut seen = 0u32;
    for (name, workload) in &WORKLOADS {
        if parts
            .iter()
            .any(|part| part == "all" || name.contains(part.as_str()))
        {
            seen = seen.wrapping_add(measure_sizes(name, *workload)?);
        }
    }
    println!("seen {seen}");
    Ok(())
}

fn measure_sizes(name: &str, workload: Workload) -> Result<u32> {
    let (mut all, mut picos) = (0u32, 0);
    for size in SIZES {
        if (size as u128 / 1000) * picos > LONGEST_RUN {
            break;
        }
        let (nanos, seen) = measure_workload(workload, size)?;
        picos = nanos * 1000 / (size * batch(size) * workload.times()) as u128;
        println!("{name} {size} {picos}");
        all = all.wrapping_add(seen);
    }
    Ok(all)
}

/// How many lists of a size make a run.
fn batch(size: usize) -> usize {
    (BATCH_GLYPHS / size).max(1)
}

/// Measures a batch of items.
fn many<I: Item>(size: usize, make: impl FnMut() -> Result<I>) -> Result<(u128, u32)> {
    let mut items = std::iter::repeat_with(make)
        .take(batch(size))
        .collect::<Result<Vec<I>>>()?;
    measure(&mut items)
}

fn measure_workload(workload: Workload, size: usize) -> Result<(u128, u32)> {
    match workload {
        Workload::NewText => {
            let text = mixed_text(size)?;
            many(size, || Ok(NewTextItem::new(&text)))
        }
        Workload::ReusedText => {
            let text = mixed_text(size)?;
            many(size, || Ok(ReusedTextItem::new(&text)))
        }
        Workload::Calls(pass) => many(size, || Ok(PassItem::new(pass, size))),
        Workload::Serialized { positions } => many(size, || TextItem::new(size, positions)),
        Workload::Shaping(pass) => {
            let rows = UnicodeRows::new()?;
            let tables = Tables::new(&rows);
            many(size, || Ok(ShaperItem::new(pass, &tables, size)))
        }
        Workload::Features => many(size, || Ok(FeaturesItem::new(&FEATURES, size))),
        Workload::Tags { is_long: false } => measure_tags(&ONE_ROW, size),
        Workload::Tags { is_long: true } => {
            let keys = long_keys()?;
            measure_tags(&rows(&keys)?, size)
        }
    }
}

fn measure_tags(rows: &[(&str, Tag)], size: usize) -> Result<(u128, u32)> {
    let pairs = pairs()?;
    many(size, || TagsItem::new(&pairs, rows, size))
}
