//! Where every answer ends: a checksum of all its fields, the same on both sides.

use std::hint::black_box;

use engine::ffi::{Answer, FedAnswer};

/// A checksum of what was read, in order, and a sum of the bytes used or sent with the interrupted frames in its high bits. With WHOLE it reads
/// every byte of a frame or a buffer; else only how many there are, since the reading would be the most of the time on both sides.
#[derive(Debug, Clone, Copy, PartialEq, Eq)]
pub struct Sink<const WHOLE: bool> {
    said: u64,
    used: u64,
}

impl<const WHOLE: bool> Sink<WHOLE> {
    pub(crate) fn new() -> Self {
        Self { said: 0, used: 0 }
    }

    /// Takes a word in which each field of an answer has a place of its own.
    #[inline(always)]
    pub(crate) fn word(&mut self, word: u64) {
        self.said = (self.said.rotate_left(23) ^ word).wrapping_mul(0x9E37_79B9_7F4A_7C15);
    }

    /// Counts bytes that a decoder used, or that were sent.
    #[inline(always)]
    pub(crate) fn used(&mut self, count: u64) {
        self.used = self.used.wrapping_add(count);
    }

    /// Report 18, so many times.
    #[inline(always)]
    pub(crate) fn interrupted(&mut self, count: u64) {
        self.used = self.used.wrapping_add(count << 40);
        if WHOLE && count != 0 {
            self.word(18);
        }
    }

    /// A report by its kind, status byte and two numbers.
    #[inline(always)]
    pub(crate) fn report(&mut self, kind: u64, status: u64, first: u64, second: u64) {
        self.word(kind.wrapping_add(status << 8).wrapping_add(first << 16).wrapping_add(second << 40));
    }

    /// The bytes of a frame or of a written buffer.
    #[inline(always)]
    pub(crate) fn bytes(&mut self, bytes: &[u8]) {
        if WHOLE {
            bytes.iter().for_each(|byte| self.word(u64::from(*byte)));
        } else {
            black_box(bytes.as_ptr());
        }
    }

    /// A refusal, which no workload should meet.
    #[cold]
    pub(crate) fn refused(&mut self) {
        self.word(u64::MAX);
    }

    /// A call of the engine's decoder: report 18 first, then the report of the last byte.
    #[inline(always)]
    pub(crate) fn fed(&mut self, fed: &FedAnswer, store: &[u8]) {
        assert!(fed.number == 0, "a call of the decoder is refused");
        self.used(fed.used);
        self.interrupted(fed.interrupted);
        match fed.kind {
            0 => assert!(fed.used != 0, "a call of the decoder used nothing"),
            2 => {
                self.report(2, fed.status, fed.first, fed.second);
                self.bytes(&store[..fed.first as usize]);
            }
            kind => self.report(kind, fed.status, fed.first, fed.second),
        }
    }

    /// A count that the original wrote, with what it wrote.
    #[inline(always)]
    pub(crate) fn count(&mut self, count: usize, out: &[u8]) {
        self.word(count as u64);
        self.bytes(if WHOLE { &out[..count] } else { out });
    }

    /// A count that the engine wrote, with what it wrote.
    #[inline(always)]
    pub(crate) fn answer(&mut self, answer: &Answer, out: &[u8]) {
        self.word(answer.value.wrapping_add(refusal(answer.number, answer.details)));
        self.bytes(if WHOLE { &out[..answer.value as usize] } else { out });
    }

    /// The sum of the bytes used or sent.
    #[must_use]
    pub fn total(&self) -> u64 {
        self.used
    }

    /// The checksum, for a line of text.
    #[must_use]
    pub fn text(&self) -> String {
        format!("{:016x} {:x}", self.said, self.used)
    }
}

/// A refusal's number and details in one word, each at a place of its own: 0 where there is none.
#[inline(always)]
pub(crate) fn refusal(number: u64, [a, b, c, d]: [u64; 4]) -> u64 {
    (number << 56).wrapping_add(a << 24).wrapping_add(b << 32).wrapping_add(c << 40).wrapping_add(d << 48)
}
