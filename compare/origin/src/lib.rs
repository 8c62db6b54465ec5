//! The bench's words, answered by the original Rust, whose sources are built as they are.
//!
//! Two files of the original are not among them: its error type, written here by document 01's table, and the list of the sysex modules.

pub mod bench;
pub mod error;

/// The original's own modules.
#[allow(missing_docs, clippy::all, unexpected_cfgs, dead_code)]
mod original {
    include!(concat!(env!("OUT_DIR"), "/original.rs"));
}

pub use original::{ids, sysex, wire};
