//! Chains of messages through the writer that leaves out status bytes, read by the original's decoder and by the engine's.

use engine::ffi::{self, RUNNING_LEN};
use origin::wire::MAX_SYSEX_LEN;
use words::{short_hex, Answer, Bench, Message, Request};

use crate::random::Numbers;
use crate::tally::{Difference, Tally};
use crate::Size;

/// A writer: the state behind what it wrote, the message, and room for it.
pub type Writer = fn(&mut [u8], &Message, &mut [u8]) -> ffi::Answer;

/// How much was written of the chains that were read alike.
#[derive(Debug, Clone, Copy, Default)]
pub struct Written {
    pub messages: u64,
    /// Bytes with every status byte: those that the original's writer gives for channel messages, and the other messages' own bytes, counted.
    pub plain: u64,
    /// Bytes of the engine's writer.
    pub shortened: u64,
}

pub fn ask(tally: &mut Tally, random: &mut Numbers, size: Size) {
    for _ in 0..size.pick(80, 1_500) {
        let statuses: Vec<u8> = (0..1 + random.below(4)).map(|_| status(random)).collect();
        let length = 2_000 + random.below(4_000);
        let chain: Vec<Message> = (0..length).map(|_| message(random, &statuses)).collect();
        tally.chain(&chain, &random.sizes(40));
    }
}

fn status(random: &mut Numbers) -> u8 {
    0x80 + random.byte() % 0x70
}

/// A message in range, most often a channel message.
fn message(random: &mut Numbers, statuses: &[u8]) -> Message {
    match random.below(20) {
        0..=2 => Message::Realtime(*random.one(&[0xF8, 0xFA, 0xFB, 0xFC, 0xFE, 0xFF])),
        3 => match *random.one(&[0xF1, 0xF2, 0xF3, 0xF6]) {
            0xF2 => Message::Common { status: 0xF2, value: random.below(16_384) as u16 },
            status => Message::Common { status, value: random.data_byte().into() },
        },
        4 => {
            let data = if random.below(1_000) == 0 { MAX_SYSEX_LEN - 2 - random.below(3) } else { random.below(12) };
            Message::Frame([&[0xF0], &random.data(data)[..], &[0xF7]].concat())
        }
        _ => channel(random, statuses),
    }
}

/// A channel message, most often with one of these status bytes.
fn channel(random: &mut Numbers, statuses: &[u8]) -> Message {
    let status = if random.below(8) == 0 { status(random) } else { *random.one(statuses) };
    let nibble = status & 0xF0;
    let a = if nibble == 0xE0 { random.below(16_384) as u16 } else { random.data_byte().into() };
    Message::Channel { nibble, channel: status & 15, a, b: random.data_byte() }
}

/// Every byte of a message. The original writes channel messages (`encode_into`) and has a real-time message's byte (`to_status`); it has no writer
/// of system common messages, nor of a frame that is given as its bytes. The bytes of all but channel messages stand here.
fn put_plain(original: &mut dyn Bench, message: &Message, into: &mut Vec<u8>) {
    match message {
        Message::Channel { nibble, channel, a, b } => {
            let mut out = [0; 3];
            let request = Request::Chan { nibble: *nibble, channel: *channel, a: *a, b: *b, out: Vec::new() };
            if let Answer::Ok(count) = original.answer(&request, &mut out) {
                into.extend_from_slice(&out[..count.parse().unwrap_or(0)]);
            }
        }
        Message::Common { status: 0xF6, .. } => into.push(0xF6),
        Message::Common { status: 0xF2, value } => into.extend_from_slice(&[0xF2, (value % 128) as u8, (value / 128) as u8]),
        Message::Common { status, value } => into.extend_from_slice(&[*status, *value as u8]),
        Message::Realtime(byte) => into.push(*byte),
        Message::Frame(bytes) => into.extend_from_slice(bytes),
    }
}

/// What a writer makes of a chain from the state none. A message that it refuses adds nothing.
fn written(writer: Writer, chain: &[Message]) -> Vec<u8> {
    let mut state = [0; RUNNING_LEN];
    let mut out = [0; MAX_SYSEX_LEN];
    let mut bytes = Vec::new();
    for message in chain {
        let answer = writer(&mut state, message, &mut out);
        if answer.number == 0 {
            bytes.extend_from_slice(&out[..answer.value as usize]);
        }
    }
    bytes
}

/// How many status bytes can be left out: that of each channel message behind one with the same, with at most real-time messages between the two.
/// A system common message and a frame stand as status 0 here.
fn spare(chain: &[Message]) -> usize {
    let statuses = chain.iter().filter_map(|message| match message {
        Message::Channel { nibble, channel, .. } => Some(nibble | channel),
        Message::Realtime(_) => None,
        Message::Common { .. } | Message::Frame(_) => Some(0),
    });
    let statuses: Vec<u8> = statuses.collect();
    statuses.windows(2).filter(|pair| pair[0] != 0 && pair[0] == pair[1]).count()
}

/// A chain's bytes with every status byte, and as the engine's writer has them.
struct Sides {
    plain: Vec<u8>,
    shortened: Vec<u8>,
}

/// Reports as bytes that stand for them.
fn reports(bench: &mut dyn Bench, sizes: &[usize], bytes: &[u8]) -> Vec<u8> {
    let mut said = Vec::new();
    bench.decode(Some(sizes), bytes, &mut |_, report| report.put(&mut said));
    said
}

/// What one side wrote, and how its decoder reads what the engine wrote, for people.
fn told(bench: &mut dyn Bench, written: &[u8], sizes: &[usize], bytes: &[u8]) -> String {
    let mut said = format!("wrote {}, read", short_hex(written));
    bench.decode(Some(sizes), bytes, &mut |_, report| {
        said.push(' ');
        said.push_str(&report.text());
    });
    said
}

/// A frame with the same length and nothing but 01 inside; another message as it is.
fn with_plain_data(message: &Message) -> Message {
    match message {
        Message::Frame(bytes) => Message::Frame(bytes.iter().map(|byte| if *byte < 0x80 { 1 } else { *byte }).collect()),
        other => other.clone(),
    }
}

impl Tally {
    /// A chain from the state none: each decoder must read the list itself from what the engine wrote, with every status byte left out that can be.
    /// The original must read the list from the bytes with every status byte, too.
    pub fn chain(&mut self, chain: &[Message], sizes: &[usize]) {
        match self.same_list(chain, sizes) {
            Ok(Sides { plain, shortened }) => {
                *self.alike.entry("chains").or_default() += 1;
                self.written.messages += chain.len() as u64;
                self.written.plain += plain.len() as u64;
                self.written.shortened += shortened.len() as u64;
            }
            Err(_) => match self.differences.get_mut("chains") {
                Some(known) => known.seen += 1,
                None => self.note_chain(chain.to_vec(), sizes),
            },
        }
    }

    /// The bytes of both sides, in Ok where the chain is read and written as it must be.
    fn same_list(&mut self, chain: &[Message], sizes: &[usize]) -> Result<Sides, Sides> {
        let original = self.original.as_mut();
        let (mut list, mut plain) = (Vec::new(), Vec::new());
        for message in chain {
            message.report().put(&mut list);
            put_plain(original, message, &mut plain);
        }
        let shortened = written(self.writer, chain);
        let read = reports(original, sizes, &plain) == list
            && reports(original, sizes, &shortened) == list
            && reports(&mut self.engine, sizes, &shortened) == list;
        if read && shortened.len() + spare(chain) == plain.len() {
            Ok(Sides { plain, shortened })
        } else {
            Err(Sides { plain, shortened })
        }
    }

    /// Keeps a difference, with as many messages taken out as can be, and with frames of nothing but 01 where they show it as well.
    fn note_chain(&mut self, mut chain: Vec<Message>, sizes: &[usize]) {
        let mut cut = chain.len();
        while cut > 0 {
            let mut at = 0;
            while at + cut <= chain.len() {
                let less = [&chain[..at], &chain[at + cut..]].concat();
                if self.same_list(&less, sizes).is_ok() {
                    at += cut;
                } else {
                    chain = less;
                }
            }
            cut /= 2;
        }
        let plainer: Vec<Message> = chain.iter().map(with_plain_data).collect();
        if self.same_list(&plainer, sizes).is_err() {
            chain = plainer;
        }
        let Err(Sides { plain, shortened }) = self.same_list(&chain, sizes) else { return };
        let request = chain.iter().map(Message::to_string).collect::<Vec<_>>().join(", ");
        let original = told(self.original.as_mut(), &plain, sizes, &shortened);
        let engine = told(&mut self.engine, &shortened, sizes, &shortened);
        self.keep("chains", Difference { request, original, engine, seen: 1, measure: (shortened.len(), 0) });
    }
}
