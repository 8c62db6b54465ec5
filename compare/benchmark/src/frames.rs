//! Frames read and written.

use std::hint::black_box;

use engine::ffi::{self, ReadAnswer};
use origin::ids::DeviceId;
use origin::sysex::{Frame, Message};

use crate::calls::room;
use crate::sink::refusal;
use crate::{timed, Ran, Sink, Workload};

#[inline(never)]
pub fn engine_read<const WHOLE: bool>(work: &Workload, passes: usize) -> Ran<WHOLE> {
    timed(passes, |sink| {
        for piece in black_box(&work.bytes[..]).chunks(work.piece) {
            let read = ffi::frame_read(piece);
            take(sink, &read, piece);
        }
    })
}

#[inline(never)]
pub fn original_read<const WHOLE: bool>(work: &Workload, passes: usize) -> Ran<WHOLE> {
    timed(passes, |sink| {
        for piece in black_box(&work.bytes[..]).chunks(work.piece) {
            match Frame::parse(piece) {
                Ok(frame) => take_original(sink, &frame, piece),
                Err(_) => sink.refused(),
            }
        }
    })
}

/// The records are read once, ahead of the time; each is then written again and again from its plain numbers.
#[inline(never)]
pub fn engine_write<const WHOLE: bool>(work: &Workload, passes: usize) -> Ran<WHOLE> {
    let records: Vec<(ReadAnswer, &[u8])> = work.bytes.chunks(work.piece).map(record).collect();
    let mut out = room(work);
    timed(passes, |sink| {
        for (head, run) in black_box(&records[..]) {
            let answer = ffi::frame_write(
                head.everyone as u8,
                head.unit as u8,
                head.command as u8,
                head.free as u8,
                head.version as u8,
                head.bank as u8,
                head.program as u8,
                head.last as u8,
                head.pattern as u8,
                head.has_pattern as u8,
                head.interface as u8,
                head.rx as u8,
                head.tx as u8,
                run,
                &mut out,
            );
            sink.answer(&answer, &out);
        }
    })
}

/// The frames are read once, ahead of the time; each is then written again and again from the original's own types.
#[inline(never)]
pub fn original_write<const WHOLE: bool>(work: &Workload, passes: usize) -> Ran<WHOLE> {
    let frames: Vec<Frame<'_>> = work.bytes.chunks(work.piece).filter_map(|piece| Frame::parse(piece).ok()).collect();
    let mut out = room(work);
    timed(passes, |sink| {
        for frame in black_box(&frames[..]) {
            match frame.encode_into(&mut out) {
                Ok(count) => sink.count(count, &out),
                Err(_) => sink.refused(),
            }
        }
    })
}

fn record(piece: &[u8]) -> (ReadAnswer, &[u8]) {
    let read = ffi::frame_read(piece);
    assert_eq!(read.number, 0, "a frame of a workload is refused");
    (read, run_of(&read, piece))
}

fn run_of<'a>(read: &ReadAnswer, piece: &'a [u8]) -> &'a [u8] {
    &piece[read.run_start as usize..][..read.run_len as usize]
}

/// Where the fields of a record stand in the two words that the sink takes; a field that the command lacks adds 0.
mod place {
    pub const EVERYONE: u32 = 0;
    pub const UNIT: u32 = 8;
    pub const COMMAND: u32 = 16;
    pub const FREE: u32 = 24;
    pub const VERSION: u32 = 32;
    pub const BANK: u32 = 40;
    pub const PROGRAM: u32 = 48;
    pub const LAST: u32 = 56;

    pub const PATTERN: u32 = 0;
    pub const HAS_PATTERN: u32 = 8;
    pub const INTERFACE: u32 = 16;
    pub const RX: u32 = 24;
    pub const TX: u32 = 32;
    pub const RUN_START: u32 = 40;
    pub const RUN_LEN: u32 = 48;
}

/// Every field of what the engine read.
#[inline(always)]
fn take<const WHOLE: bool>(sink: &mut Sink<WHOLE>, read: &ReadAnswer, piece: &[u8]) {
    if refusal(read.number, read.details) != 0 {
        sink.refused();
    }
    sink.word(
        (read.everyone << place::EVERYONE)
            .wrapping_add(read.unit << place::UNIT)
            .wrapping_add(read.command << place::COMMAND)
            .wrapping_add(read.free << place::FREE)
            .wrapping_add(read.version << place::VERSION)
            .wrapping_add(read.bank << place::BANK)
            .wrapping_add(read.program << place::PROGRAM)
            .wrapping_add(read.last << place::LAST),
    );
    sink.word(
        (read.pattern << place::PATTERN)
            .wrapping_add(read.has_pattern << place::HAS_PATTERN)
            .wrapping_add(read.interface << place::INTERFACE)
            .wrapping_add(read.rx << place::RX)
            .wrapping_add(read.tx << place::TX)
            .wrapping_add(read.run_start << place::RUN_START)
            .wrapping_add(read.run_len << place::RUN_LEN),
    );
    sink.bytes(if WHOLE { run_of(read, piece) } else { piece });
}

/// Every field of what the original read: those that its message has.
#[inline(always)]
fn take_original<const WHOLE: bool>(sink: &mut Sink<WHOLE>, frame: &Frame<'_>, piece: &[u8]) {
    let at = |byte: u8, place: u32| u64::from(byte) << place;
    let device = match frame.device {
        DeviceId::Unit(unit) => at(unit, place::UNIT),
        DeviceId::Broadcast => 1 << place::EVERYONE,
    };
    let (first, second, run): (u64, u64, &[u8]) = match frame.message {
        Message::ControlAppNotifyRequest { reserved } => (at(reserved, place::FREE), 0, &[]),
        Message::ProgramDumpRequest { bank, program } | Message::SingleProgramNameDumpRequest { bank, program } => {
            (at(bank.index(), place::BANK) + at(program.get(), place::PROGRAM), 0, &[])
        }
        Message::ProgramDumpResponse { version, bank, program, packed } => {
            (at(version.get(), place::VERSION) + at(bank.index(), place::BANK) + at(program.get(), place::PROGRAM), 0, packed)
        }
        Message::EditBufferDumpResponse { version, packed }
        | Message::GlobalParameterDumpResponse { version, packed }
        | Message::CalibrationDataDumpResponse { version, packed }
        | Message::ChordMemoryDumpResponse { version, packed }
        | Message::PolyChordMemoryDumpResponse { version, packed } => (at(version.get(), place::VERSION), 0, packed),
        Message::SingleUserPatternDumpRequest { pattern } => (0, at(pattern.get(), place::PATTERN), &[]),
        Message::UserPatternDumpResponse { version, pattern, packed } => {
            let named = pattern.map_or(0, |pattern| at(pattern.get(), place::PATTERN) + (1 << place::HAS_PATTERN));
            (at(version.get(), place::VERSION), named, packed)
        }
        Message::ProgramBankDumpRequest { bank, first, last } => {
            (at(bank.index(), place::BANK) + at(first.get(), place::PROGRAM) + at(last.get(), place::LAST), 0, &[])
        }
        Message::BankProgramNamesDumpRequest { bank } => (at(bank.index(), place::BANK), 0, &[]),
        Message::BankProgramNamesDumpResponse { version, bank, packed } | Message::SingleProgramNameDumpResponse { version, bank, packed } => {
            (at(version.get(), place::VERSION) + at(bank.index(), place::BANK), 0, packed)
        }
        Message::ControlAppNotifyResponse { rx_channel, tx_channel, interface, bank, program } => (
            at(bank.index(), place::BANK) + at(program.get(), place::PROGRAM),
            at(rx_channel, place::RX) + at(tx_channel, place::TX) + at(interface.to_byte(), place::INTERFACE),
            &[],
        ),
        // the requests that have no payload
        _ => (0, 0, &[]),
    };
    sink.word(device + at(frame.message.command().to_byte(), place::COMMAND) + first);
    let start = if run.is_empty() { 0 } else { run.as_ptr().addr() - piece.as_ptr().addr() };
    sink.word(second.wrapping_add((start as u64) << place::RUN_START).wrapping_add((run.len() as u64) << place::RUN_LEN));
    sink.bytes(if WHOLE { run } else { piece });
}
