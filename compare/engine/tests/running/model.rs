//! Single calls beside a model that was written from MIDI 1.0 and from order 2's sentences.

use engine::ffi::{self, Answer, NO_RECORD};
use words::Message;

use super::{limit, write, Numbers};

fn refused(number: u64, details: &[u64]) -> Answer {
    let mut answer = Answer { number, value: 0, details: [0; 4] };
    answer.details[..details.len()].copy_from_slice(details);
    answer
}

/// Every byte of a message, or what it is refused with.
fn whole(message: &Message) -> Result<Vec<u8>, Answer> {
    let low = |value: u16| (value % 128) as u8;
    let high = |value: u16| (value / 128 % 128) as u8;
    match message {
        Message::Channel { nibble, channel, a, b } => {
            let data = match nibble {
                0x80 | 0x90 | 0xA0 | 0xB0 => vec![low(*a), b % 128],
                0xC0 | 0xD0 => vec![low(*a)],
                0xE0 => vec![low(*a), high(*a)],
                _ => return Err(refused(NO_RECORD, &[])),
            };
            if *channel > 15 {
                return Err(refused(17, &[u64::from(*channel)]));
            }
            Ok([vec![nibble + channel], data].concat())
        }
        Message::Common { status, value } => {
            let (most, data) = match status {
                0xF1 | 0xF3 => (127, vec![low(*value)]),
                0xF2 => (16_383, vec![low(*value), high(*value)]),
                0xF6 => (u16::MAX, vec![]),
                _ => return Err(refused(NO_RECORD, &[])),
            };
            if *value > most {
                return Err(refused(21, &[u64::from(*value)]));
            }
            Ok([vec![*status], data].concat())
        }
        Message::Realtime(byte) if *byte < 0xF8 || *byte == 0xF9 || *byte == 0xFD => Err(refused(NO_RECORD, &[])),
        Message::Realtime(byte) => Ok(vec![*byte]),
        Message::Frame(bytes) => {
            let [0xF0, inside @ .., 0xF7] = &bytes[..] else {
                return Err(refused(1, &[]));
            };
            match inside.iter().find(|byte| **byte > 127) {
                Some(byte) => Err(refused(2, &[u64::from(*byte)])),
                None if bytes.len() > limit() => Err(refused(19, &[limit() as u64])),
                None => Ok(bytes.clone()),
            }
        }
    }
}

/// The running status that a host's bytes say.
fn status_of(state: &[u8]) -> Result<Option<u8>, Answer> {
    match state {
        [0, 0] => Ok(None),
        [1, status] if (0x80..=0xEF).contains(status) => Ok(Some(*status)),
        _ => Err(refused(20, &[])),
    }
}

/// What a call writes and the running status behind it, or its refusal.
fn sent(state: &[u8], message: &Message, room: usize) -> Result<(Vec<u8>, Option<u8>), Answer> {
    let running = status_of(state)?;
    let mut bytes = whole(message)?;
    let behind = match message {
        Message::Channel { .. } => Some(bytes[0]),
        Message::Realtime(_) => running,
        Message::Common { .. } | Message::Frame(_) => None,
    };
    if matches!(message, Message::Channel { .. }) && running == Some(bytes[0]) {
        bytes.remove(0);
    }
    if bytes.len() > room {
        return Err(refused(14, &[bytes.len() as u64, room as u64]));
    }
    Ok((bytes, behind))
}

/// A call and the model must answer the same, and leave the same state and the same buffer.
fn compare(state: &[u8], message: &Message, out: &[u8]) {
    let (mut state_said, mut out_said) = (state.to_vec(), out.to_vec());
    let said = write(&mut state_said, message, &mut out_said);
    let (mut state_meant, mut out_meant) = (state.to_vec(), out.to_vec());
    let meant = match sent(state, message, out.len()) {
        Ok((bytes, behind)) => {
            out_meant[..bytes.len()].copy_from_slice(&bytes);
            state_meant = behind.map_or(vec![0, 0], |status| vec![1, status]);
            Answer { number: 0, value: bytes.len() as u64, details: [0; 4] }
        }
        Err(refusal) => refusal,
    };
    assert_eq!((said, state_said, out_said), (meant, state_meant, out_meant), "{message} behind {state:02x?} in {} bytes", out.len());
}

/// A number near one of these limits, or any.
fn near(numbers: &mut Numbers, limits: &[u16]) -> u16 {
    match numbers.below(3) {
        0 => numbers.below(65_536) as u16,
        1 => numbers.one(limits).wrapping_add(numbers.one(&[0, 1, 65_535])),
        _ => numbers.below(128) as u16,
    }
}

/// F0, bytes and F7, often with one byte altered, now and then of a length about the limit.
fn frame(numbers: &mut Numbers) -> Vec<u8> {
    let data = if numbers.below(40) == 0 { limit() - 4 + numbers.below(5) } else { numbers.below(9) };
    let mut bytes = numbers.frame(data);
    if numbers.below(3) == 0 {
        let place = numbers.one(&[0, 1, bytes.len() / 2, bytes.len() - 2, bytes.len() - 1]);
        bytes[place] = numbers.byte();
    }
    if numbers.below(20) == 0 {
        let length = numbers.below(bytes.len());
        bytes.truncate(length);
    }
    bytes
}

/// A message in range or out of it; a channel message now and then has this status byte.
fn any(numbers: &mut Numbers, status: u8) -> Message {
    match numbers.below(8) {
        0 => Message::Common { status: numbers.one(&[0xF1, 0xF2, 0xF3, 0xF6]), value: near(numbers, &[127, 128, 16_383, 16_384]) },
        1 => Message::Realtime(0xF0 + numbers.byte() % 16),
        2 => Message::Frame(frame(numbers)),
        3 => Message::Common { status: numbers.byte(), value: near(numbers, &[127]) },
        kind => {
            let status = if kind == 4 { numbers.byte() } else { status };
            let channel = if numbers.below(8) == 0 { numbers.byte() } else { status & 15 };
            Message::Channel { nibble: status & 0xF0, channel, a: near(numbers, &[127, 255, 8_191, 16_383]), b: numbers.byte() }
        }
    }
}

/// A buffer about as long as the message, or a few bytes.
fn room(numbers: &mut Numbers, message: &Message) -> Vec<u8> {
    let length = match message {
        Message::Frame(bytes) => (bytes.len() + numbers.below(4)).saturating_sub(numbers.below(4)),
        _ => numbers.below(5),
    };
    numbers.bytes(length)
}

/// Every status byte with the flag 00 and the flag 01, and other lengths and flags.
#[test]
fn random_calls_answer_as_the_model() {
    let mut numbers = Numbers(2);
    for flag in [0, 1] {
        for status in 0..=255 {
            for _ in 0..800 {
                let message = any(&mut numbers, status);
                compare(&[flag, status], &message, &room(&mut numbers, &message));
            }
        }
    }
    for _ in 0..200_000 {
        let length = numbers.one(&[0, 1, 2, 2, 2, 2, 3, 14]);
        let mut state = numbers.bytes(length);
        if length == 2 {
            state[0] = numbers.one(&[0, 1, 1, 1, 2, 255]);
            state[1] = numbers.one(&[0, 0x90, state[1]]);
        }
        let message = any(&mut numbers, 0x90);
        compare(&state, &message, &room(&mut numbers, &message));
    }
}

/// Every byte as a kind of each sort, behind states of each sort.
#[test]
fn every_kind_answers_as_the_model() {
    for state in [&[0, 0][..], &[1, 0x90], &[1, 0xEF], &[1, 0xF0], &[0, 0x90], &[2, 0x90], &[1], &[]] {
        for kind in 0..=255 {
            for channel in [0, 15, 16, 255] {
                for out in [&[][..], &[0x55], &[0x55; 2], &[0x55; 4]] {
                    compare(state, &Message::Channel { nibble: kind, channel, a: 16_511, b: 255 }, out);
                    compare(state, &Message::Common { status: kind, value: channel.into() }, out);
                    compare(state, &Message::Common { status: kind, value: 65_535 }, out);
                    compare(state, &Message::Realtime(kind), out);
                    compare(state, &Message::Frame(vec![kind, 0xF7]), out);
                    compare(state, &Message::Frame(vec![0xF0, kind, 0xF7]), out);
                }
            }
        }
    }
}

/// Every status byte behind every running status.
#[test]
fn every_pair_of_status_bytes_answers_as_the_model() {
    for running in 0x80..=0xEF {
        for status in 0x80..=0xEF_u8 {
            for out in [&[0x55][..], &[0x55; 2], &[0x55; 3]] {
                compare(&[1, running], &Message::Channel { nibble: status & 0xF0, channel: status & 15, a: 60, b: 64 }, out);
            }
        }
    }
}

/// The state none is written over any two bytes, and nothing over any other length.
#[test]
fn fresh_takes_any_two_bytes() {
    for pair in 0..=u16::MAX {
        let mut state = pair.to_be_bytes();
        let answer = ffi::running_fresh(&mut state);
        assert_eq!((answer, state), (Answer { number: 0, value: 2, details: [0; 4] }, [0; 2]), "{pair:04x}");
    }
    for byte in 0..=255 {
        for length in (0..20).filter(|length| *length != 2) {
            let mut state = vec![byte; length];
            let answer = ffi::running_fresh(&mut state);
            assert_eq!((answer, state), (refused(20, &[]), vec![byte; length]));
        }
    }
}
