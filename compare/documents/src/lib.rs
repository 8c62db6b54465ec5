//! The documents beside the sources: every file and every name that docs/PROOFS.md and docs/ARCHITECTURE.md give is looked for where they say that
//! it stands; and the picture of the crates, drawn from crates.txt.

mod page;
mod picture;
mod sources;

pub use page::{blocks, headings, links, slug, Block};
pub use picture::{picture, programs};
pub use sources::Sources;
