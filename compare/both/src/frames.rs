//! The frame reader: good frames of every kind, and what damage makes of them.

use words::Request;

use crate::random::Numbers;
use crate::{Size, Tally};

/// Each command with the payload bytes that stand ahead of its run, each a good value, and the raw length that its run holds.
pub struct Kind {
    pub command: u8,
    pub prefix: &'static [u8],
    /// None where the command carries no run; 0 for calibration, whose run has any length.
    pub raw: Option<usize>,
}

const fn kind(command: u8, prefix: &'static [u8], raw: Option<usize>) -> Kind {
    Kind { command, prefix, raw }
}

/// Dumps stand here once for each version, and the pattern dump without and with its number.
pub const KINDS: [Kind; 32] = [
    kind(0x00, &[5], None),
    kind(0x01, &[2, 127], None),
    kind(0x02, &[6, 3, 4], Some(242)),
    kind(0x02, &[7, 7, 127], Some(245)),
    kind(0x03, &[], None),
    kind(0x04, &[6], Some(242)),
    kind(0x04, &[7], Some(245)),
    kind(0x05, &[], None),
    kind(0x06, &[6], Some(45)),
    kind(0x06, &[7], Some(45)),
    kind(0x07, &[31], None),
    kind(0x08, &[6], Some(65)),
    kind(0x08, &[7, 31], Some(65)),
    kind(0x09, &[0, 5, 3], None),
    kind(0x0A, &[7], None),
    kind(0x0B, &[6, 0], Some(2048)),
    kind(0x0B, &[7, 7], Some(2048)),
    kind(0x0C, &[4, 16], None),
    kind(0x0D, &[6, 0], Some(16)),
    kind(0x0D, &[7, 7], Some(16)),
    kind(0x0E, &[], None),
    kind(0x10, &[16, 15, 2, 7, 127], None),
    kind(0x10, &[0, 0, 0, 0, 0], None),
    kind(0x11, &[], None),
    kind(0x12, &[6], Some(0)),
    kind(0x12, &[7], Some(0)),
    kind(0x1B, &[], None),
    kind(0x1C, &[6], Some(26)),
    kind(0x1C, &[7], Some(26)),
    kind(0x1D, &[], None),
    kind(0x1E, &[6], Some(512)),
    kind(0x1E, &[7], Some(512)),
];

pub fn ask(tally: &mut Tally, random: &mut Numbers, size: Size) {
    every_run_length(tally, random, size);
    every_short_payload(tally, random, size);
    let good = good_frames(tally, random);
    every_device_and_command(tally, &good);
    every_byte_altered(tally, &good, size);
    cut_and_joined(tally, &good, random, size);
    damaged_at_random(tally, &good, random, size);
}

fn frame(device: u8, command: u8, payload: &[u8]) -> Vec<u8> {
    let mut bytes = vec![0xF0, 0x00, 0x20, 0x32, 0x20, device, command];
    bytes.extend_from_slice(payload);
    bytes.push(0xF7);
    bytes
}

fn read(tally: &mut Tally, bytes: Vec<u8>) {
    tally.ask(&Request::Frame(bytes));
}

/// Run lengths about the one that is needed: all from 10 below to 14 above, and for short runs and calibration from 0.
pub fn run_lengths(raw: usize) -> Vec<usize> {
    let padded = raw.div_ceil(7) * 8;
    if raw == 0 {
        (0..60).chain(2_330..2_360).collect()
    } else {
        (padded.saturating_sub(12)..padded + 14).collect()
    }
}

/// Every dump with every run length to a little above its limit, every version byte about the two that are known, and prefixes that are
/// in and out of range.
fn every_run_length(tally: &mut Tally, random: &mut Numbers, size: Size) {
    for Kind { command, prefix, raw } in KINDS {
        let Some(raw) = raw else { continue };
        let longest = raw.div_ceil(7) * 8 + 30;
        let from = if raw > 600 { longest.saturating_sub(size.pick(80, longest)) } else { 0 };
        for length in (from..longest).chain(0..40).chain(run_lengths(raw)) {
            let run = random.data(length);
            for version in [0, 5, 6, 7, 8, 127] {
                for field in [0, 7, 8, 31, 32, 127] {
                    let mut payload = vec![version];
                    payload.extend(prefix.iter().skip(1).map(|_| field));
                    payload.extend_from_slice(&run);
                    read(tally, frame(0, command, &payload));
                }
            }
        }
    }
}

/// Every command byte with payloads of 0 to 9 bytes, edges and at random.
fn every_short_payload(tally: &mut Tally, random: &mut Numbers, size: Size) {
    for command in 0..=255 {
        for length in 0..=9 {
            for round in 0..size.pick(12, 300) {
                let payload = match round {
                    0 => vec![0; length],
                    1 => vec![127; length],
                    2 => vec![6; length],
                    3 => vec![7; length],
                    4 => random.bytes(length),
                    _ => (0..length).map(|_| random.mostly_below(8)).collect(),
                };
                read(tally, frame(random.mostly_below(16), command, &payload));
            }
        }
    }
}

/// Frames that the original accepts: every kind, with every run length about its limits that passes.
fn good_frames(tally: &mut Tally, random: &mut Numbers) -> Vec<Vec<u8>> {
    let mut good = Vec::new();
    for Kind { command, prefix, raw } in KINDS {
        for length in raw.map_or(vec![0], run_lengths) {
            let mut payload = prefix.to_vec();
            payload.extend(random.data(length));
            let bytes = frame(*random.one(&[0, 15, 0x7F]), command, &payload);
            if tally.original_accepts(&Request::Frame(bytes.clone())) {
                good.push(bytes);
            }
        }
    }
    assert!(good.len() > 200, "only {} good frames were made", good.len());
    good
}

/// Every device byte and every command byte in every good frame.
fn every_device_and_command(tally: &mut Tally, good: &[Vec<u8>]) {
    for bytes in good {
        for place in [5, 6] {
            for byte in 0..=255 {
                let mut altered = bytes.clone();
                altered[place] = byte;
                read(tally, altered);
            }
        }
    }
}

/// Every byte of every good frame replaced: by every value where it is not inside a long run, and there by a few. The reader gets it as
/// it is, and the decoder with a note behind it.
fn every_byte_altered(tally: &mut Tally, good: &[Vec<u8>], size: Size) {
    let few = [0x00, 0x01, 0x7F, 0x80, 0x90, 0xF0, 0xF6, 0xF7, 0xF8];
    let every: Vec<u8> = (0..=255).collect();
    for bytes in good {
        let step = if bytes.len() > 600 { size.pick(41, 1) } else { size.pick(3, 1) };
        for place in (0..bytes.len()).filter(|place| *place < 14 || *place + 4 > bytes.len() || place % step == 0) {
            let near = place < 14 || place + 4 > bytes.len();
            for byte in if near && size == Size::Whole { &every[..] } else { &few[..] } {
                let mut altered = bytes.clone();
                altered[place] = *byte;
                read(tally, altered.clone());
                altered.extend_from_slice(&[0x90, 0x3C, 0x40]);
                tally.stream(None, &altered);
            }
        }
    }
}

/// Good frames cut short at every length, with bytes put in ahead of F7, and the front of one joined to the back of another.
fn cut_and_joined(tally: &mut Tally, good: &[Vec<u8>], random: &mut Numbers, size: Size) {
    for bytes in good {
        let step = if bytes.len() > 600 { size.pick(29, 1) } else { 1 };
        for length in (0..bytes.len()).step_by(step) {
            let mut short = bytes[..length].to_vec();
            read(tally, short.clone());
            short.push(0xF7);
            read(tally, short);
        }
        for more in 1..=9 {
            let mut long = bytes.clone();
            let at = long.len() - 1;
            long.splice(at..at, random.data(more));
            read(tally, long);
        }
        for _ in 0..size.pick(60, 2_000) {
            let other = random.one(good);
            let mut joined = bytes[..random.below(bytes.len().min(400) + 1)].to_vec();
            joined.extend_from_slice(&other[random.below(other.len())..]);
            tally.stream(None, &joined);
            read(tally, joined);
        }
    }
}

/// Good frames with one to three bytes altered, taken out or put in, wherever.
fn damaged_at_random(tally: &mut Tally, good: &[Vec<u8>], random: &mut Numbers, size: Size) {
    let short: Vec<&Vec<u8>> = good.iter().filter(|bytes| bytes.len() < 600).collect();
    for round in 0..size.pick(100_000, 4_000_000) {
        let mut bytes = if round % 50 == 0 { random.one(good).clone() } else { (*random.one(&short)).clone() };
        for _ in 0..1 + random.below(3) {
            let near = random.below(2) == 0;
            let at = random.below(if near { bytes.len().min(12) } else { bytes.len() });
            match random.below(6) {
                0 => drop(bytes.remove(at)),
                1 => bytes.insert(at, random.data_byte()),
                2 => bytes[at] = random.byte(),
                3 => bytes[at] = random.mostly_below(8),
                _ => bytes[at] = random.data_byte(),
            }
        }
        read(tally, bytes);
    }
}
