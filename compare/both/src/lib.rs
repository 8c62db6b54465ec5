//! The engine and the original, asked the same.

mod chains;
mod frames;
mod identity;
mod numbers;
pub mod random;
pub mod rows;
mod streams;
mod tally;
mod writes;

pub use chains::{Writer, Written};
pub use tally::{Difference, Tally};

/// How much is asked.
#[derive(Debug, Clone, Copy, PartialEq, Eq)]
pub enum Size {
    /// A part of the tests.
    Small,
    /// Some tens of millions of requests.
    Whole,
}

impl Size {
    /// The first number in a small run, the second in a whole one.
    #[must_use]
    pub fn pick(self, small: usize, whole: usize) -> usize {
        match self {
            Self::Small => small,
            Self::Whole => whole,
        }
    }
}

/// Asks both everything.
pub fn ask(tally: &mut Tally, size: Size) {
    let mut random = random::Numbers::new();
    rows::ask(tally);
    numbers::ask(tally, &mut random, size);
    streams::ask(tally, &mut random, size);
    frames::ask(tally, &mut random, size);
    writes::ask(tally, &mut random, size);
    identity::ask(tally, &mut random, size);
    chains::ask(tally, &mut random, size);
}
