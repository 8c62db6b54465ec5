//! Times the engine, through its C entry points, beside the original Rust, on the same inputs.
//!
//! A [`Workload`] is some bytes, the pieces in which they are handed in, and the call that gets them. [`run`] does it on one [`Side`], reads every
//! field of every answer into a [`Sink`], and says how long it took.

mod calls;
pub mod chart;
pub mod count;
mod frames;
mod messages;
pub mod page;
mod sink;
mod streams;
pub mod time;
mod workloads;

pub use sink::Sink;
pub use workloads::{workloads, Call, Workload};

use std::hint::black_box;
use std::time::{Duration, Instant};

/// Who does the work.
#[derive(Debug, Clone, Copy, PartialEq, Eq)]
pub enum Side {
    /// The engine, through its C entry points.
    Engine,
    /// The original Rust.
    Original,
    /// A copy of the same bytes in the same pieces: the limit.
    Memcpy,
}

impl Side {
    /// All of them, in the order in which they are timed.
    pub const ALL: [Self; 3] = [Self::Engine, Self::Original, Self::Memcpy];

    /// The side's word on the command line.
    #[must_use]
    pub fn word(self) -> &'static str {
        match self {
            Self::Engine => "engine",
            Self::Original => "original",
            Self::Memcpy => "memcpy",
        }
    }

    /// The side of a word.
    #[must_use]
    pub fn from_word(word: &str) -> Option<Self> {
        Self::ALL.into_iter().find(|side| side.word() == word)
    }
}

/// What a run left: what was read, and the time that its passes took.
pub struct Ran<const WHOLE: bool> {
    /// What was read.
    pub sink: Sink<WHOLE>,
    /// The time of all passes, without what was made ready ahead of them.
    pub time: Duration,
}

/// Goes over a workload's bytes so many times, on one side. With WHOLE the sink reads written bytes too, and the time means little.
#[must_use]
pub fn run<const WHOLE: bool>(work: &Workload, side: Side, passes: usize) -> Ran<WHOLE> {
    match (side, work.call) {
        (Side::Engine, Call::Feed) => streams::engine(work, passes),
        (Side::Engine, Call::Pack) => calls::engine_pack(work, passes),
        (Side::Engine, Call::Unpack) => calls::engine_unpack(work, passes),
        (Side::Engine, Call::Read) => frames::engine_read(work, passes),
        (Side::Engine, Call::Write) => frames::engine_write(work, passes),
        (Side::Engine, Call::Send) => messages::engine(work, passes),
        (Side::Original, Call::Feed) => streams::original(work, passes),
        (Side::Original, Call::Pack) => calls::original_pack(work, passes),
        (Side::Original, Call::Unpack) => calls::original_unpack(work, passes),
        (Side::Original, Call::Read) => frames::original_read(work, passes),
        (Side::Original, Call::Write) => frames::original_write(work, passes),
        (Side::Original, Call::Send) => messages::original(work, passes),
        (Side::Memcpy, _) => calls::memcpy(work, passes),
    }
}

/// The engine's bytes over the original's, where the two write a list of messages each in its own way.
#[must_use]
pub fn bytes(work: &Workload) -> Option<f64> {
    if work.call != Call::Send {
        return None;
    }
    let [engine, original] = [Side::Engine, Side::Original].map(|side| run::<false>(work, side, 1).sink.total());
    Some(engine as f64 / original as f64)
}

/// Times so many passes.
#[inline(always)]
fn timed<const WHOLE: bool>(passes: usize, mut pass: impl FnMut(&mut Sink<WHOLE>)) -> Ran<WHOLE> {
    let mut sink = Sink::new();
    let start = Instant::now();
    for _ in 0..passes {
        pass(&mut sink);
    }
    let time = start.elapsed();
    Ran { sink: black_box(sink), time }
}
