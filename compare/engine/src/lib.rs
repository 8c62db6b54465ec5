//! The bench's words over the engine's C entry points.

pub mod bench;
pub mod ffi;
mod records;
pub mod running;
mod stream;
