//! What a decoder reports.

use crate::bytes::hex;

/// One report.
#[derive(Debug, Clone, Copy, PartialEq, Eq)]
pub enum Report<'a> {
    /// A channel message by its status byte and data; a bend is one number.
    Channel {
        /// The status byte.
        status: u8,
        /// The first data byte, or the whole bend.
        first: u16,
        /// The second data byte, where the message has one of its own.
        second: Option<u8>,
    },
    /// A frame.
    Frame(&'a [u8]),
    /// A system common message by its status byte and value; a tune request has none.
    Common {
        /// The status byte.
        status: u8,
        /// The value.
        value: Option<u16>,
    },
    /// A real-time byte.
    Realtime(u8),
    /// Report 18.
    Interrupted,
    /// Report 19, with the limit.
    TooLong(u64),
    /// What no decoder may say, such as a refusal of a sound call.
    Never(u64),
}

impl Report<'_> {
    /// The report as the bench writes it.
    #[must_use]
    pub fn text(&self) -> String {
        match *self {
            Self::Channel { status, first, second: Some(second) } => format!("c{status:02x},{first},{second}"),
            Self::Channel { status, first, second: None } => format!("c{status:02x},{first}"),
            Self::Frame(bytes) => format!("x{}", hex(bytes)),
            Self::Common { status, value: Some(value) } => format!("m{status:02x},{value}"),
            Self::Common { status, value: None } => format!("m{status:02x}"),
            Self::Realtime(byte) => format!("r{byte:02x}"),
            Self::Interrupted => "e18".to_string(),
            Self::TooLong(limit) => format!("e19,{limit}"),
            Self::Never(number) => format!("never{number}"),
        }
    }

    /// Appends bytes that stand for this report and for no other, to compare many reports quickly.
    pub fn put(&self, into: &mut Vec<u8>) {
        let mut say = |kind: u8, first: u64, second: u64| {
            into.push(kind);
            into.extend_from_slice(&first.to_le_bytes());
            into.extend_from_slice(&second.to_le_bytes());
        };
        match *self {
            Self::Channel { status, first, second } => say(status, first.into(), second.map_or(256, u64::from)),
            Self::Frame(bytes) => {
                say(0, bytes.len() as u64, 0);
                into.extend_from_slice(bytes);
            }
            Self::Common { status, value } => say(status, value.map_or(65_536, u64::from), 0),
            Self::Realtime(byte) => say(byte, 0, 0),
            Self::Interrupted => say(18, 0, 0),
            Self::TooLong(limit) => say(19, limit, 0),
            Self::Never(number) => say(1, number, 0),
        }
    }
}

/// Hands bytes in, in pieces of these sizes, used again and again; each piece with the place of its first byte.
pub fn pieces(sizes: &[usize], bytes: &[u8], mut hand_in: impl FnMut(usize, &[u8])) {
    let mut at = 0;
    for size in sizes.iter().cycle() {
        if at == bytes.len() {
            return;
        }
        let end = bytes.len().min(at.saturating_add(*size));
        hand_in(at, &bytes[at..end]);
        at = end;
    }
}
