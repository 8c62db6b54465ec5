//! Random chains with refused calls among them, read back through the decoder in random pieces.

use super::{limit, read, write, Message, Numbers, RUNNING_LEN};
use engine::ffi::{self, Answer};

/// What was written so far, and what it has to be read as.
struct Sent {
    state: [u8; RUNNING_LEN],
    bytes: Vec<u8>,
    reports: Vec<String>,
}

/// A message in range: mostly a channel message with one of these status bytes.
fn in_range(numbers: &mut Numbers, statuses: &[u8]) -> Message {
    match numbers.below(16) {
        0 | 1 => Message::Realtime(numbers.one(&[0xF8, 0xFA, 0xFB, 0xFC, 0xFE, 0xFF])),
        2 => match numbers.one(&[0xF1, 0xF2, 0xF3, 0xF6]) {
            0xF2 => Message::Common { status: 0xF2, value: numbers.below(16_384) as u16 },
            status => Message::Common { status, value: numbers.below(128) as u16 },
        },
        3 => {
            let length = if numbers.below(60) == 0 { limit() - 2 - numbers.below(2) } else { numbers.below(10) };
            Message::Frame(numbers.frame(length))
        }
        kind => {
            let status = if kind == 4 { 0x80 + numbers.below(0x70) as u8 } else { numbers.one(statuses) };
            let a = if status >= 0xE0 { numbers.below(16_384) } else { numbers.below(128) };
            Message::Channel { nibble: status & 0xF0, channel: status & 15, a: a as u16, b: numbers.below(128) as u8 }
        }
    }
}

/// A message that is refused whatever the state and the room, and by which number.
fn refused(numbers: &mut Numbers) -> (Message, u64) {
    let short = numbers.below(6);
    let mut frame = numbers.frame(1 + short);
    match numbers.below(8) {
        0 => (Message::Channel { nibble: 0x90, channel: 16 + numbers.below(240) as u8, a: 1, b: 1 }, 17),
        1 => (Message::Common { status: numbers.one(&[0xF1, 0xF3]), value: 128 + numbers.below(65_408) as u16 }, 21),
        2 => (Message::Common { status: 0xF2, value: 16_384 + numbers.below(49_152) as u16 }, 21),
        3 => {
            let place = 1 + numbers.below(frame.len() - 2);
            frame[place] = numbers.one(&[0x80, 0x90, 0xF0, 0xF7, 0xF8, 0xFF]);
            (Message::Frame(frame), 2)
        }
        4 => (Message::Frame(numbers.frame(limit() - 1)), 19),
        5 => (Message::Frame(frame[1..].to_vec()), 1),
        6 => (Message::Realtime(numbers.one(&[0, 0x90, 0xF0, 0xF6, 0xF9, 0xFD])), ffi::NO_RECORD),
        _ => (Message::Channel { nibble: numbers.one(&[0, 0x70, 0x91, 0xEF, 0xF0]), channel: 0, a: 0, b: 0 }, ffi::NO_RECORD),
    }
}

/// Bytes that are no state, of any length.
fn no_state(numbers: &mut Numbers) -> Vec<u8> {
    match numbers.below(4) {
        0 => {
            let length = numbers.one(&[0, 1, 3, 4, 14]);
            vec![0; length]
        }
        1 => vec![0, 1 + numbers.below(255) as u8],
        2 => vec![1, numbers.one(&[0, 0x3C, 0x7F, 0xF0, 0xF6, 0xF8, 0xFF])],
        _ => vec![2 + numbers.below(254) as u8, 0x90],
    }
}

impl Sent {
    /// A call in a room that holds any bytes: a refusal leaves state and room, and what is accepted leaves the room behind its count.
    fn call(state: &mut [u8], message: &Message, room: usize, numbers: &mut Numbers) -> (Answer, Vec<u8>) {
        let before = (state.to_vec(), numbers.bytes(room));
        let mut out = before.1.clone();
        let answer = write(state, message, &mut out);
        let count = answer.value as usize;
        if answer.number == 0 {
            assert_eq!(out[count..], before.1[count..], "{message}");
        } else {
            assert_eq!((state.to_vec(), &out), (before.0, &before.1), "{message}");
        }
        out.truncate(count);
        (answer, out)
    }

    /// Writes a message into a random room, and into one that is long enough where that was too short.
    fn send(&mut self, message: &Message, numbers: &mut Numbers) {
        let room = numbers.below(6);
        let (mut answer, mut bytes) = Self::call(&mut self.state, message, room, numbers);
        if answer.number == 14 {
            assert_eq!(answer.details[1..], [room as u64, 0, 0], "{message}");
            let needed = answer.details[0] as usize;
            assert!(needed > room, "{message}");
            let more = needed + numbers.below(3);
            (answer, bytes) = Self::call(&mut self.state, message, more, numbers);
            assert_eq!(answer.value as usize, needed, "{message}");
        }
        assert_eq!((answer.number, answer.details), (0, [0; 4]), "{message}");
        self.bytes.extend_from_slice(&bytes);
        self.reports.push(message.report().text());
    }

    /// A call that is refused.
    fn fail(&mut self, numbers: &mut Numbers) {
        let room = numbers.below(6);
        let (message, number) = refused(numbers);
        assert_eq!(Self::call(&mut self.state, &message, room, numbers).0.number, number, "{message}");
        let mut wrong = no_state(numbers);
        assert_eq!(Self::call(&mut wrong, &message, room, numbers).0.number, 20, "{wrong:?} {message}");
    }
}

#[test]
fn chains_read_back() {
    let mut numbers = Numbers(1);
    for round in 0..40 {
        let statuses: Vec<u8> = (0..1 + round % 4).map(|_| 0x80 + numbers.below(0x70) as u8).collect();
        let mut sent = Sent { state: [0; RUNNING_LEN], bytes: Vec::new(), reports: Vec::new() };
        for _ in 0..5_000 {
            if numbers.below(4) == 0 {
                sent.fail(&mut numbers);
            }
            let message = in_range(&mut numbers, &statuses);
            sent.send(&message, &mut numbers);
        }
        let mut sizes: Vec<usize> = (0..200).map(|_| numbers.below(9)).collect();
        sizes.push(1 + numbers.below(3_000));
        let read = read(&sent.bytes, &sizes);
        for (place, (said, meant)) in read.iter().zip(&sent.reports).enumerate() {
            assert_eq!(said, meant, "message {place} of chain {round}");
        }
        assert_eq!(read.len(), sent.reports.len(), "chain {round}");
    }
}
