//! Each of the bench's words over the engine, through the C entry points.

use words::{Answer, Bench, Report, Request};

use crate::ffi::{self, NO_RECORD};
use crate::{records, running, stream};

/// The engine, with the store that it lends to each fresh decoder. What the store holds makes no difference to a report.
pub struct Engine {
    store: Vec<u8>,
}

impl Engine {
    /// A bench over the engine.
    #[must_use]
    pub fn new() -> Self {
        Self { store: vec![0xAA; ffi::capacity() as usize] }
    }
}

impl Default for Engine {
    fn default() -> Self {
        Self::new()
    }
}

impl Bench for Engine {
    fn answer(&mut self, request: &Request, out: &mut [u8]) -> Answer {
        match request {
            Request::Bank(n) => plain(ffi::bank(*n)),
            Request::Program(n) => plain(ffi::program(*n)),
            Request::Pattern(n) => plain(ffi::pattern(*n)),
            Request::Version(n) => plain(ffi::version(*n)),
            Request::Device(n) => plain(ffi::device(*n)),
            Request::Channel(n) => plain(ffi::channel(*n)),
            Request::Interface(n) => plain(ffi::interface(*n)),
            Request::Command(n) => plain(ffi::command(*n)),
            Request::RawLen(n) => plain(ffi::program_data_len(*n)),
            Request::DataLen(status) => or_none(ffi::data_len(*status)),
            Request::Rt(byte) => or_none(ffi::realtime(*byte)),
            Request::PackedLen(n) => plain(ffi::packed_len(*n as usize)),
            Request::UnpackedLen(n) => plain(ffi::unpacked_len(*n as usize)),
            Request::Pack { bytes, .. } => plain(ffi::pack(bytes, out)),
            Request::Unpack { bytes, .. } => plain(ffi::unpack(bytes, out)),
            Request::Chan { nibble, channel, a, b, .. } => plain(ffi::channel_write(*nibble, *channel, *a, *b, out)),
            Request::Common { status, value, .. } => plain(ffi::common_write(*status, *value, out)),
            Request::RtWrite { byte, .. } => plain(ffi::realtime_write(*byte, out)),
            Request::RunningWrite { state, message, .. } => running::word(*state, message, out),
            Request::Feed(bytes) => words::decoded(self, None, bytes),
            Request::Chunks { sizes, bytes } => words::decoded(self, Some(sizes), bytes),
            Request::Call { state, store, bytes } => stream::call(*state, store, bytes),
            Request::Reset(state) => stream::reset(*state),
            Request::Frame(bytes) => records::frame(bytes),
            Request::FrameWrite { head, .. } => plain(records::write(head, out)),
            Request::ReadBack(head) => records::read_back(head),
            Request::InquiryRequest(bytes) => records::inquiry_request(bytes),
            Request::InquiryReply(bytes) => records::inquiry_reply(bytes),
            Request::WriteRequest { device, .. } => records::write_request(*device, out),
            Request::WriteReply { device, major, minor, voice, .. } => records::write_reply(*device, [*major, *minor], *voice, out),
            Request::Held(messages) => records::held(messages),
        }
    }

    fn decode(&mut self, sizes: Option<&[usize]>, bytes: &[u8], report: &mut dyn FnMut(usize, Report<'_>)) -> bool {
        stream::decode(&mut self.store, sizes, bytes, report)
    }
}

/// How many details a refusal has, by document 01's table.
fn details(number: u64) -> usize {
    match number {
        4 => 4,
        7 => 3,
        14 => 2,
        1 | 15 | 16 | 18 | 20 | 22 => 0,
        _ => 1,
    }
}

/// A refusal with its details; a kind that no record names is said to be so.
pub fn refused(number: u64, given: &[u64]) -> Answer {
    match u8::try_from(number) {
        Ok(short @ 1..=22) => Answer::No(short, given.iter().copied().take(details(number)).collect()),
        _ if number == NO_RECORD => Answer::What("no record names this kind".to_string()),
        _ => Answer::What(format!("{number}, which the engine never gives")),
    }
}

/// A number, or a refusal.
pub fn plain(answer: ffi::Answer) -> Answer {
    match answer.number {
        0 => Answer::number(answer.value),
        number => refused(number, &answer.details),
    }
}

fn or_none(answer: ffi::Answer) -> Answer {
    if answer.number == NO_RECORD {
        Answer::Ok("none".to_string())
    } else {
        plain(answer)
    }
}
