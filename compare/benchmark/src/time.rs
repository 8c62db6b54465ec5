//! Times: the best of many repeats, the sides in turn.

use std::time::Duration;

use crate::{run, Side, Workload};

/// How much is timed.
#[derive(Debug, Clone, Copy)]
pub struct Effort {
    /// How often all workloads are gone through.
    pub rounds: usize,
    /// How often each is repeated in a round, on each side.
    pub repeats: usize,
    /// How long one repeat takes the original at the least.
    pub least: Duration,
}

impl Effort {
    /// About a minute.
    pub const WHOLE: Self = Self { rounds: 50, repeats: 50, least: Duration::from_micros(100) };

    /// About a second, with rough times.
    pub const QUICK: Self = Self { rounds: 2, repeats: 20, least: Duration::from_micros(50) };
}

/// The best times of a workload, each for the same number of passes.
#[derive(Debug, Clone, Copy)]
pub struct Times {
    engine: Duration,
    original: Duration,
    memcpy: Duration,
}

impl Times {
    /// The engine's time over the original's.
    #[must_use]
    pub fn ratio(&self) -> f64 {
        self.engine.as_secs_f64() / self.original.as_secs_f64()
    }

    /// The time of a copy over the original's.
    #[must_use]
    pub fn limit(&self) -> f64 {
        self.memcpy.as_secs_f64() / self.original.as_secs_f64()
    }
}

/// Times all workloads. The times of one stand in the place of that one.
#[must_use]
pub fn times(workloads: &[Workload], effort: Effort) -> Vec<Times> {
    let passes: Vec<usize> = workloads.iter().map(|work| passes(work, effort.least)).collect();
    let mut best = vec![Times { engine: Duration::MAX, original: Duration::MAX, memcpy: Duration::MAX }; workloads.len()];
    for _ in 0..effort.rounds {
        for ((work, passes), best) in workloads.iter().zip(&passes).zip(&mut best) {
            for _ in 0..effort.repeats {
                best.engine = best.engine.min(once(work, Side::Engine, *passes));
                best.original = best.original.min(once(work, Side::Original, *passes));
                best.memcpy = best.memcpy.min(once(work, Side::Memcpy, *passes));
            }
        }
    }
    best
}

fn once(work: &Workload, side: Side, passes: usize) -> Duration {
    run::<false>(work, side, passes).time
}

/// How many passes take the original so long.
fn passes(work: &Workload, least: Duration) -> usize {
    let mut passes = 1;
    while once(work, Side::Original, passes) < least {
        passes *= 2;
    }
    passes
}
