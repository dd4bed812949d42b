//! How long the calls take: the workloads of the crate `shaping_bench`, written by `tools/plain_rust`.
//!
//! ```sh
//! cargo run --release --example bench -- all            # or parts of names
//! ```
//!
//! A line for each workload has its name, how many glyphs the list has, and the least time of many runs in picoseconds a
//! glyph (of the last three workloads, a text or a pair). The runs are those that rustybuzz's benchmark makes.

mod runs;

#[allow(clippy::redundant_closure, dead_code)] // written code
mod shaping_bench {
    pub mod item;
    pub mod lists;
    #[path = "../measuring.rs"]
    pub mod measuring;
    pub mod pass;
    pub mod ranges;
    pub mod shaper_passes;
    pub mod shaper_tables;
    pub mod tags;
    pub mod texts;
    pub mod walks;
    pub mod workload;
}

/// What the workloads name of the crate of this name.
mod anyhow {
    pub type Result<T> = std::result::Result<T, Box<dyn std::error::Error>>;

    macro_rules! anyhow {
        ($text:literal) => {
            Box::<dyn std::error::Error>::from($text)
        };
    }

    macro_rules! bail {
        ($text:literal) => {
            return Err(Box::<dyn std::error::Error>::from($text))
        };
    }

    pub(crate) use {anyhow, bail};
}

fn main() -> anyhow::Result<()> {
    let parts: Vec<String> = std::env::args().skip(1).collect();
    if parts.is_empty() {
        println!(
            "bench all | PART ..: measures every workload, or those whose names have one of the parts"
        );
        return Ok(());
    }
    runs::measure_wanted(&parts)
}
