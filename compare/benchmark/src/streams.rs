//! Streams through the decoders.

use std::hint::black_box;

use engine::ffi;
use origin::error::{Error, Result};
use origin::wire::{ChannelMessage, Decoder, Event, SystemCommon, MAX_SYSEX_LEN};

use crate::{timed, Ran, Sink, Workload};

/// Each piece is handed in until all of it is used. A pass starts with a reset.
#[inline(never)]
pub fn engine<const WHOLE: bool>(work: &Workload, passes: usize) -> Ran<WHOLE> {
    let mut state = [0; ffi::STATE_LEN];
    let mut store = vec![0; ffi::capacity() as usize];
    timed(passes, |sink| {
        black_box(ffi::reset(&mut state).number);
        for piece in black_box(&work.bytes[..]).chunks(work.piece) {
            let mut rest = piece;
            while !rest.is_empty() {
                let fed = ffi::feed(&mut state, &mut store, rest);
                sink.fed(&fed, &store);
                rest = &rest[fed.used as usize..];
            }
        }
    })
}

/// Each piece is handed in once. A pass starts with a reset.
#[inline(never)]
pub fn original<const WHOLE: bool>(work: &Workload, passes: usize) -> Ran<WHOLE> {
    let mut decoder = Decoder::new();
    timed(passes, |sink| {
        decoder.reset();
        for piece in black_box(&work.bytes[..]).chunks(work.piece) {
            feed(&mut decoder, piece, sink);
        }
    })
}

/// The original's call as a real one, as the engine's is.
#[inline(never)]
fn feed<const WHOLE: bool>(decoder: &mut Decoder<MAX_SYSEX_LEN>, piece: &[u8], sink: &mut Sink<WHOLE>) {
    sink.used(piece.len() as u64);
    decoder.feed(piece, |event| told(event, sink));
}

/// A report of the original, by the numbers that the engine's have.
#[inline(always)]
pub fn told<const WHOLE: bool>(event: Result<Event<'_>>, sink: &mut Sink<WHOLE>) {
    match event {
        Ok(Event::Channel { channel, message }) => {
            let (first, second) = data(message);
            sink.report(1, u64::from(message.status_nibble()) + u64::from(channel.index()), first, second);
        }
        Ok(Event::SysEx(frame)) => {
            sink.report(2, 0, frame.len() as u64, 0);
            sink.bytes(frame);
        }
        Ok(Event::Common(SystemCommon::TimeCodeQuarterFrame(value))) => sink.report(3, 0xF1, value.into(), 0),
        Ok(Event::Common(SystemCommon::SongPosition(value))) => sink.report(3, 0xF2, value.into(), 0),
        Ok(Event::Common(SystemCommon::SongSelect(value))) => sink.report(3, 0xF3, value.into(), 0),
        Ok(Event::Common(SystemCommon::TuneRequest)) => sink.report(3, 0xF6, 0, 0),
        Ok(Event::Realtime(message)) => sink.report(4, message.to_status().into(), 0, 0),
        Err(Error::SysExInterrupted) => sink.interrupted(1),
        Err(Error::SysExTooLong(limit)) => sink.report(19, 0, limit as u64, 0),
        Ok(_) | Err(_) => sink.refused(),
    }
}

#[inline(always)]
pub fn data(message: ChannelMessage) -> (u64, u64) {
    match message {
        ChannelMessage::NoteOff { key, velocity } | ChannelMessage::NoteOn { key, velocity } => (key.into(), velocity.into()),
        ChannelMessage::PolyKeyPressure { key, pressure } => (key.into(), pressure.into()),
        ChannelMessage::ControlChange { controller, value } => (controller.into(), value.into()),
        ChannelMessage::ProgramChange { program } => (program.into(), 0),
        ChannelMessage::ChannelPressure { pressure } => (pressure.into(), 0),
        ChannelMessage::PitchBend { value } => (value.into(), 0),
    }
}
