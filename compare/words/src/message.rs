//! A message for the word `rsw`.

use std::fmt;

use crate::bytes::short_hex;
use crate::report::Report;

/// A message by its fields, which may be out of range, or of a kind that no record names.
#[derive(Debug, Clone, PartialEq, Eq)]
pub enum Message {
    /// A channel message. A bend is one number, the first.
    Channel { nibble: u8, channel: u8, a: u16, b: u8 },
    /// A system common message. A tune request's value says nothing.
    Common { status: u8, value: u16 },
    /// A real-time message, by its byte.
    Realtime(u8),
    /// A frame, by its bytes.
    Frame(Vec<u8>),
}

impl Message {
    /// What a decoder reports of this message, where it is in range.
    #[must_use]
    pub fn report(&self) -> Report<'_> {
        match self {
            Self::Channel { nibble, channel, a, b } => {
                Report::Channel { status: nibble | channel, first: *a, second: (*nibble < 0xC0).then_some(*b) }
            }
            Self::Common { status, value } => Report::Common { status: *status, value: (*status != 0xF6).then_some(*value) },
            Self::Realtime(byte) => Report::Realtime(*byte),
            Self::Frame(bytes) => Report::Frame(bytes),
        }
    }
}

impl fmt::Display for Message {
    fn fmt(&self, f: &mut fmt::Formatter<'_>) -> fmt::Result {
        match self {
            Self::Channel { nibble, channel, a, b } => write!(f, "ch {nibble} {channel} {a} {b}"),
            Self::Common { status, value } => write!(f, "common {status} {value}"),
            Self::Realtime(byte) => write!(f, "rt {byte}"),
            Self::Frame(bytes) => write!(f, "frame {}", short_hex(bytes)),
        }
    }
}
