//! The word of the writer that leaves out status bytes.

use words::{hex, Answer, Message};

use crate::bench::refused;
use crate::ffi::{self, RUNNING_LEN};

/// Writes a message, by the entry point of its kind. The state goes in as it is lent, of any length.
pub fn write(state: &mut [u8], message: &Message, out: &mut [u8]) -> ffi::Answer {
    match message {
        Message::Channel { nibble, channel, a, b } => ffi::running_channel(state, *nibble, *channel, *a, *b, out),
        Message::Common { status, value } => ffi::running_common(state, *status, *value, out),
        Message::Realtime(byte) => ffi::running_realtime(state, *byte, out),
        Message::Frame(bytes) => ffi::running_frame(state, bytes, out),
    }
}

/// The count that is written, and the state behind it.
pub fn word(state: Option<u8>, message: &Message, out: &mut [u8]) -> Answer {
    let mut bytes = state.map_or([0; RUNNING_LEN], |status| [1, status]);
    let written = write(&mut bytes, message, out);
    match written.number {
        0 => Answer::Ok(format!("{} {}", written.value, shown(bytes))),
        number => refused(number, &written.details),
    }
}

/// A state as the bench writes it; bytes that are no state stand whole, with four digits.
fn shown(bytes: [u8; RUNNING_LEN]) -> String {
    match bytes {
        [0, 0] => "-".to_string(),
        [1, status] => status.to_string(),
        _ => hex(&bytes),
    }
}
