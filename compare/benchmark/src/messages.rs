//! Messages written one after another for one cable: by the engine with running status, by the original each with its status byte.

use std::hint::black_box;

use engine::ffi;
use origin::error::Result;
use origin::wire::{Channel, ChannelMessage, Decoder, Realtime, MAX_SYSEX_LEN};

use crate::calls::room;
use crate::streams::{data, told};
use crate::{timed, Ran, Sink, Workload};

/// A message as a value of the original's own types.
#[derive(Clone, Copy)]
enum Own {
    Channel(Channel, ChannelMessage),
    Realtime(Realtime),
}

/// A message as plain numbers.
#[derive(Clone, Copy)]
enum Plain {
    Channel { nibble: u8, channel: u8, a: u16, b: u8 },
    Realtime(u8),
}

/// The messages are read once, ahead of the time; each is then written again and again from its plain numbers. A pass starts with no running status.
#[inline(never)]
pub fn engine<const WHOLE: bool>(work: &Workload, passes: usize) -> Ran<WHOLE> {
    let list: Vec<Plain> = work.bytes.chunks(work.piece).map(|piece| plain(own(piece))).collect();
    let (mut state, mut out, mut sent) = ([0; ffi::RUNNING_LEN], room(work), Vec::new());
    timed(passes, |sink| {
        black_box(ffi::running_fresh(&mut state).number);
        for message in black_box(&list[..]) {
            let answer = match *message {
                Plain::Channel { nibble, channel, a, b } => ffi::running_channel(&mut state, nibble, channel, a, b, &mut out),
                Plain::Realtime(byte) => ffi::running_realtime(&mut state, byte, &mut out),
            };
            if WHOLE {
                assert!(answer.number == 0, "a message of a workload is refused");
                sent.extend_from_slice(&out[..answer.value as usize]);
            } else {
                sink.answer(&answer, &out);
                sink.used(answer.value);
            }
        }
        read_back(&mut sent, sink);
    })
}

/// The messages are read once, ahead of the time; each is then written again and again from the original's own types.
#[inline(never)]
pub fn original<const WHOLE: bool>(work: &Workload, passes: usize) -> Ran<WHOLE> {
    let list: Vec<Own> = work.bytes.chunks(work.piece).map(own).collect();
    let (mut out, mut sent) = (room(work), Vec::new());
    timed(passes, |sink| {
        for message in black_box(&list[..]) {
            let written = match *message {
                Own::Channel(channel, message) => message.encode_into(channel, &mut out),
                Own::Realtime(message) => put(message, &mut out),
            };
            match written {
                Ok(count) if WHOLE => sent.extend_from_slice(&out[..count]),
                Ok(count) => {
                    sink.count(count, &out);
                    sink.used(count as u64);
                }
                Err(_) => sink.refused(),
            }
        }
        read_back(&mut sent, sink);
    })
}

/// The original's real-time messages have no encode_into. This one is a real call, as the engine's is.
#[inline(never)]
fn put(message: Realtime, out: &mut [u8]) -> Result<usize> {
    out[0] = message.to_status();
    Ok(1)
}

/// With WHOLE, the sink takes what the original's decoder reports of a pass's bytes: the two sides write different bytes that say the same.
fn read_back<const WHOLE: bool>(sent: &mut Vec<u8>, sink: &mut Sink<WHOLE>) {
    if WHOLE {
        Decoder::<MAX_SYSEX_LEN>::new().feed(sent, |event| told(event, sink));
        sent.clear();
    }
}

fn own(piece: &[u8]) -> Own {
    if let Some(message) = Realtime::from_status(piece[0]) {
        return Own::Realtime(message);
    }
    let message = ChannelMessage::from_bytes(piece[0], piece[1], piece[2]).expect("a piece of a workload is no message");
    Own::Channel(Channel::new(piece[0] % 16).expect("a channel"), message)
}

fn plain(message: Own) -> Plain {
    match message {
        Own::Channel(channel, message) => {
            let (a, b) = data(message);
            Plain::Channel { nibble: message.status_nibble(), channel: channel.index(), a: a as u16, b: b as u8 }
        }
        Own::Realtime(message) => Plain::Realtime(message.to_status()),
    }
}
