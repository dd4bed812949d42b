//! The least time of many runs.

use std::time::{Duration, Instant};

/// A thing on which work is timed, again and again.
pub trait Item {
    /// Puts the thing into the state in which the work finds it. This is not timed.
    fn prepare(&mut self) -> crate::anyhow::Result<()>;

    /// The work that is timed. It gives a number that its result decides, so that no work can be left out.
    fn run(&mut self) -> crate::anyhow::Result<u32>;
}

/// Runs that come first and don't count; the fewest that count; the time after which none is begun.
const WARM_RUNS: usize = 3;
const FEWEST_RUNS: usize = 15;
const MOST_RUNS: usize = 5000;
const BUDGET: Duration = Duration::from_millis(400);

/// The size of a block behind what the first run took. It keeps the allocator from giving memory back to the system
/// between runs, only to ask for fresh pages again.
const BLOCK_BEHIND: usize = 65_536;

/// Runs the work on each item, many times over: the least time in nanoseconds, and what the work gave.
pub fn measure<I: Item>(items: &mut [I]) -> crate::anyhow::Result<(u128, u32)> {
    let (begin, mut least, mut seen) = (Instant::now(), u128::MAX, 0u32);
    let mut behind: Vec<u8> = Vec::new();
    for done in 0..MOST_RUNS {
        if done >= WARM_RUNS + FEWEST_RUNS && begin.elapsed() > BUDGET {
            break;
        }
        items.iter_mut().try_for_each(Item::prepare)?;
        let start = Instant::now();
        for item in items.iter_mut() {
            seen = seen.wrapping_add(item.run()?);
        }
        let time = start.elapsed().as_nanos();
        behind.reserve(BLOCK_BEHIND);
        if done >= WARM_RUNS {
            least = least.min(time);
        }
    }
    Ok((least, seen))
}
