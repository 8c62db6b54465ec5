//! The C entry points, each behind a safe function. Every call is allowed every content and length; lent parts never overlap, since Rust lends
//! them apart. include/cobnutdrill.h says what each call answers.

/// What most calls answer.
#[repr(C)]
#[derive(Debug, Clone, Copy, PartialEq, Eq)]
pub struct Answer {
    /// 0, document 01's number, or [`NO_RECORD`].
    pub number: u64,
    /// What was asked for.
    pub value: u64,
    /// A refusal's details, 0 behind the last.
    pub details: [u64; 4],
}

/// The number of a kind that no record names.
pub const NO_RECORD: u64 = 255;

/// Bytes of a decoder's state.
pub const STATE_LEN: usize = 14;

/// Bytes of a running-status state.
pub const RUNNING_LEN: usize = 2;

/// Bytes of a held-key record.
pub const HELD_LEN: usize = 256;

/// What a call of the decoder answers.
#[repr(C)]
#[derive(Debug, Clone, Copy, PartialEq, Eq)]
pub struct FedAnswer {
    /// 0 or 20.
    pub number: u64,
    /// Bytes used.
    pub used: u64,
    /// Report 18 comes first.
    pub interrupted: u64,
    /// The kind of the report.
    pub kind: u64,
    /// Its status byte.
    pub status: u64,
    /// Its first number.
    pub first: u64,
    /// Its second number.
    pub second: u64,
}

/// What the frame reader answers: a number, and the record's plain fields.
#[repr(C)]
#[derive(Debug, Clone, Copy, PartialEq, Eq)]
pub struct ReadAnswer {
    pub number: u64,
    pub details: [u64; 4],
    pub everyone: u64,
    pub unit: u64,
    pub command: u64,
    pub free: u64,
    pub version: u64,
    pub bank: u64,
    pub program: u64,
    pub last: u64,
    pub pattern: u64,
    pub has_pattern: u64,
    pub interface: u64,
    pub rx: u64,
    pub tx: u64,
    pub run_start: u64,
    pub run_len: u64,
}

/// What the reader of identity requests answers.
#[repr(C)]
#[derive(Debug, Clone, Copy, PartialEq, Eq)]
pub struct RequestAnswer {
    pub number: u64,
    pub detail0: u64,
    pub everyone: u64,
    pub unit: u64,
}

/// What the reader of identity replies answers.
#[repr(C)]
#[derive(Debug, Clone, Copy, PartialEq, Eq)]
pub struct ReplyAnswer {
    pub number: u64,
    pub detail0: u64,
    pub everyone: u64,
    pub unit: u64,
    pub major: u64,
    pub minor: u64,
    pub voice_major: u64,
    pub voice_minor: u64,
}

/// The first held key, where one is found.
#[repr(C)]
#[derive(Debug, Clone, Copy, PartialEq, Eq)]
pub struct HeldAnswer {
    pub number: u64,
    pub found: u64,
    pub channel: u64,
    pub key: u64,
}

mod c {
    use super::{Answer, FedAnswer, HeldAnswer, ReadAnswer, ReplyAnswer, RequestAnswer};

    extern "C" {
        pub fn dm_bank(byte: u8) -> Answer;
        pub fn dm_program(byte: u8) -> Answer;
        pub fn dm_pattern(byte: u8) -> Answer;
        pub fn dm_version(byte: u8) -> Answer;
        pub fn dm_program_data_len(byte: u8) -> Answer;
        pub fn dm_device(byte: u8) -> Answer;
        pub fn dm_channel(byte: u8) -> Answer;
        pub fn dm_interface(byte: u8) -> Answer;
        pub fn dm_command(byte: u8) -> Answer;
        pub fn dm_data_len(status: u8) -> Answer;
        pub fn dm_realtime(byte: u8) -> Answer;
        pub fn dm_packed_len(n: usize) -> Answer;
        pub fn dm_unpacked_len(n: usize) -> Answer;
        pub fn dm_pack(raw: *const u8, raw_len: usize, out: *mut u8, out_len: usize) -> Answer;
        pub fn dm_unpack(run: *const u8, run_len: usize, out: *mut u8, out_len: usize) -> Answer;
        pub fn dm_channel_write(nibble: u8, channel: u8, a: u16, b: u8, out: *mut u8, out_len: usize) -> Answer;
        pub fn dm_common_write(status: u8, value: u16, out: *mut u8, out_len: usize) -> Answer;
        pub fn dm_realtime_write(byte: u8, out: *mut u8, out_len: usize) -> Answer;
        pub fn dm_running_fresh(state: *mut u8, state_len: usize) -> Answer;
        pub fn dm_running_channel(state: *mut u8, state_len: usize, nibble: u8, channel: u8, a: u16, b: u8, out: *mut u8, out_len: usize) -> Answer;
        pub fn dm_running_common(state: *mut u8, state_len: usize, status: u8, value: u16, out: *mut u8, out_len: usize) -> Answer;
        pub fn dm_running_realtime(state: *mut u8, state_len: usize, byte: u8, out: *mut u8, out_len: usize) -> Answer;
        pub fn dm_running_frame(state: *mut u8, state_len: usize, frame: *const u8, frame_len: usize, out: *mut u8, out_len: usize) -> Answer;
        pub fn dm_fresh(state: *mut u8, state_len: usize) -> Answer;
        pub fn dm_reset(state: *mut u8, state_len: usize) -> Answer;
        pub fn dm_in_sysex(state: *const u8, state_len: usize) -> Answer;
        pub fn dm_capacity() -> u64;
        pub fn dm_feed(state: *mut u8, state_len: usize, store: *mut u8, store_len: usize, bytes: *const u8, bytes_len: usize) -> FedAnswer;
        pub fn dm_frame_read(bytes: *const u8, bytes_len: usize) -> ReadAnswer;
        pub fn dm_frame_len(command: u8, has_pattern: u8, run_len: usize) -> Answer;
        pub fn dm_frame_write(
            everyone: u8,
            unit: u8,
            command: u8,
            free: u8,
            version: u8,
            bank: u8,
            program: u8,
            last: u8,
            pattern: u8,
            has_pattern: u8,
            interface: u8,
            rx: u8,
            tx: u8,
            run: *const u8,
            run_len: usize,
            out: *mut u8,
            out_len: usize,
        ) -> Answer;
        pub fn dm_request_read(bytes: *const u8, bytes_len: usize) -> RequestAnswer;
        pub fn dm_reply_read(bytes: *const u8, bytes_len: usize) -> ReplyAnswer;
        pub fn dm_request_write(everyone: u8, unit: u8, out: *mut u8, out_len: usize) -> Answer;
        pub fn dm_reply_write(everyone: u8, unit: u8, major: u8, minor: u8, voice_major: u8, voice_minor: u8, out: *mut u8, out_len: usize)
            -> Answer;
        pub fn dm_held_fresh(keys: *mut u8, keys_len: usize) -> Answer;
        pub fn dm_held_apply(keys: *mut u8, keys_len: usize, nibble: u8, channel: u8, a: u16, b: u8) -> Answer;
        pub fn dm_held_count(keys: *const u8, keys_len: usize, channel: u8) -> Answer;
        pub fn dm_held_first(keys: *const u8, keys_len: usize) -> HeldAnswer;
    }
}

/// Safe functions over the entry points: numbers go as they are, a slice as its pointer and length. They are inlined, so that a caller's call is
/// the entry point's own.
macro_rules! safe {
    ($($(#[$note:meta])* fn $name:ident $entry:ident($($rest:tt)*) -> $answer:ty;)*) => {
        $(safe! { @one [$(#[$note])*] $name $entry $answer [] [] $($rest)* })*
    };
    (@one $notes:tt $name:ident $entry:ident $answer:ty [$($given:tt)*] [$($passed:tt)*] lent $arg:ident, $($rest:tt)*) => {
        safe! { @one $notes $name $entry $answer [$($given)* $arg: &[u8],] [$($passed)* $arg.as_ptr(), $arg.len(),] $($rest)* }
    };
    (@one $notes:tt $name:ident $entry:ident $answer:ty [$($given:tt)*] [$($passed:tt)*] written $arg:ident, $($rest:tt)*) => {
        safe! { @one $notes $name $entry $answer [$($given)* $arg: &mut [u8],] [$($passed)* $arg.as_mut_ptr(), $arg.len(),] $($rest)* }
    };
    (@one $notes:tt $name:ident $entry:ident $answer:ty [$($given:tt)*] [$($passed:tt)*] $arg:ident: $type:ty, $($rest:tt)*) => {
        safe! { @one $notes $name $entry $answer [$($given)* $arg: $type,] [$($passed)* $arg,] $($rest)* }
    };
    (@one [$(#[$note:meta])*] $name:ident $entry:ident $answer:ty [$($given:tt)*] [$($passed:tt)*]) => {
        $(#[$note])*
        #[must_use]
        #[inline]
        pub fn $name($($given)*) -> $answer {
            // SAFETY: each slice is valid for the call and apart from the others, and the entry point keeps no pointer.
            unsafe { c::$entry($($passed)*) }
        }
    };
}

safe! {
    fn bank dm_bank(byte: u8,) -> Answer;
    fn program dm_program(byte: u8,) -> Answer;
    fn pattern dm_pattern(byte: u8,) -> Answer;
    fn version dm_version(byte: u8,) -> Answer;
    fn program_data_len dm_program_data_len(byte: u8,) -> Answer;
    fn device dm_device(byte: u8,) -> Answer;
    fn channel dm_channel(byte: u8,) -> Answer;
    fn interface dm_interface(byte: u8,) -> Answer;
    fn command dm_command(byte: u8,) -> Answer;
    fn data_len dm_data_len(status: u8,) -> Answer;
    fn realtime dm_realtime(byte: u8,) -> Answer;
    fn packed_len dm_packed_len(n: usize,) -> Answer;
    fn unpacked_len dm_unpacked_len(n: usize,) -> Answer;
    fn pack dm_pack(lent raw, written out,) -> Answer;
    fn unpack dm_unpack(lent run, written out,) -> Answer;
    fn channel_write dm_channel_write(nibble: u8, channel: u8, a: u16, b: u8, written out,) -> Answer;
    fn common_write dm_common_write(status: u8, value: u16, written out,) -> Answer;
    fn realtime_write dm_realtime_write(byte: u8, written out,) -> Answer;
    fn running_fresh dm_running_fresh(written state,) -> Answer;
    fn running_channel dm_running_channel(written state, nibble: u8, channel: u8, a: u16, b: u8, written out,) -> Answer;
    fn running_common dm_running_common(written state, status: u8, value: u16, written out,) -> Answer;
    fn running_realtime dm_running_realtime(written state, byte: u8, written out,) -> Answer;
    fn running_frame dm_running_frame(written state, lent frame, written out,) -> Answer;
    fn fresh dm_fresh(written state,) -> Answer;
    fn reset dm_reset(written state,) -> Answer;
    fn in_sysex dm_in_sysex(lent state,) -> Answer;
    fn capacity dm_capacity() -> u64;
    fn feed dm_feed(written state, written store, lent bytes,) -> FedAnswer;
    fn frame_read dm_frame_read(lent bytes,) -> ReadAnswer;
    fn frame_len dm_frame_len(command: u8, has_pattern: u8, run_len: usize,) -> Answer;
    #[allow(clippy::too_many_arguments)]
    fn frame_write dm_frame_write(
        everyone: u8, unit: u8, command: u8, free: u8, version: u8, bank: u8, program: u8, last: u8, pattern: u8, has_pattern: u8,
        interface: u8, rx: u8, tx: u8, lent run, written out,
    ) -> Answer;
    fn request_read dm_request_read(lent bytes,) -> RequestAnswer;
    fn reply_read dm_reply_read(lent bytes,) -> ReplyAnswer;
    fn request_write dm_request_write(everyone: u8, unit: u8, written out,) -> Answer;
    fn reply_write dm_reply_write(everyone: u8, unit: u8, major: u8, minor: u8, voice_major: u8, voice_minor: u8, written out,) -> Answer;
    fn held_fresh dm_held_fresh(written keys,) -> Answer;
    fn held_apply dm_held_apply(written keys, nibble: u8, channel: u8, a: u16, b: u8,) -> Answer;
    fn held_count dm_held_count(lent keys, channel: u8,) -> Answer;
    fn held_first dm_held_first(lent keys,) -> HeldAnswer;
}
