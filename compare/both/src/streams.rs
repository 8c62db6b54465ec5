//! Streams through a fresh decoder, whole and in pieces.

use crate::random::Numbers;
use crate::{Size, Tally};

/// A byte or two of each class that the decoder tells apart.
const CLASSES: [u8; 20] = [0x00, 0x3C, 0x7F, 0x80, 0x90, 0xBF, 0xC5, 0xD0, 0xE0, 0xEF, 0xF0, 0xF1, 0xF2, 0xF3, 0xF4, 0xF6, 0xF7, 0xF8, 0xF9, 0xFF];

pub fn ask(tally: &mut Tally, random: &mut Numbers, size: Size) {
    short(tally, size);
    tally.stream(None, &[]);
    every_short_list(tally, size.pick(4, 5));
    about_the_limit(tally, size);
    at_random(tally, random, size);
}

/// Every byte, every pair and every triple; in a small run the triples whose last byte stands for its class.
fn short(tally: &mut Tally, size: Size) {
    let every: Vec<u8> = (0..=255).collect();
    let thirds = match size {
        Size::Small => &CLASSES[..],
        Size::Whole => &every[..],
    };
    for a in 0..=255 {
        tally.stream(None, &[a]);
        for b in 0..=255 {
            tally.stream(None, &[a, b]);
            for c in thirds {
                tally.stream(None, &[a, b, *c]);
            }
        }
    }
}

/// Every list of so many bytes, each standing for its class.
fn every_short_list(tally: &mut Tally, length: usize) {
    let mut places = vec![0; length];
    let mut bytes = vec![CLASSES[0]; length];
    loop {
        tally.stream(None, &bytes);
        let Some(last) = places.iter().rposition(|place| *place + 1 < CLASSES.len()) else {
            return;
        };
        places[last] += 1;
        places[last + 1..].fill(0);
        for (byte, place) in bytes.iter_mut().zip(&places) {
            *byte = CLASSES[*place];
        }
    }
}

/// Frames of every length about the limit, ended in every way, alone and behind and ahead of other messages, whole and in pieces.
fn about_the_limit(tally: &mut Tally, size: Size) {
    let ends: [&[u8]; 14] = [
        &[0xF7],
        &[],
        &[0xF6],
        &[0x90],
        &[0xF0, 0x01, 0xF7],
        &[0xF8, 0xF7],
        &[0xF8, 0x01, 0xF7],
        &[0xF9, 0xF7],
        &[0xF7, 0x01, 0x02],
        &[0xF0],
        &[0xF4],
        &[0xF2, 0x01, 0x02],
        &[0xFF, 0xF0, 0x05, 0xF8, 0xF7],
        &[0xC5, 0x01, 0xF7],
    ];
    let pieces: [&[usize]; 6] = [&[1], &[7, 1, 512], &[2353], &[2354], &[2355, 0, 1], &[1000, 0, 0, 3]];
    let reach = size.pick(8, 20);
    for front in [&[][..], &[0x90, 0x3C], &[0xF0, 0x01]] {
        for data in 2353 - reach..2353 + reach {
            for end in ends {
                for clock in [0, 1, 2] {
                    let mut bytes = front.to_vec();
                    bytes.push(0xF0);
                    bytes.extend((0..data).map(|i| (i * 31 % 128) as u8));
                    if let Some(at) = bytes.len().checked_div(clock) {
                        bytes.insert(at, 0xF8);
                    }
                    bytes.extend_from_slice(end);
                    bytes.extend_from_slice(&[0x40, 0x90, 0x3C, 0x40, 0x41]);
                    tally.stream(None, &bytes);
                    for sizes in pieces {
                        tally.stream(Some(sizes), &bytes);
                    }
                }
            }
        }
    }
}

/// Streams of bytes at random, short ones often and long ones too, whole and in pieces of random sizes.
fn at_random(tally: &mut Tally, random: &mut Numbers, size: Size) {
    for round in 0..size.pick(150_000, 6_000_000) {
        let stream = random.stream(1 + round % 60);
        tally.stream(None, &stream);
        let sizes = random.sizes(9);
        tally.stream(Some(&sizes), &stream);
    }
    for _ in 0..size.pick(300, 20_000) {
        // few status bytes, so that frames reach the limit
        let mut stream = random.data(6_000);
        for _ in 0..1 + random.below(12) {
            let at = random.below(stream.len());
            stream[at] = random.stream_byte();
        }
        let at = random.below(1_000);
        stream[at] = 0xF0;
        tally.stream(None, &stream);
        let sizes = random.sizes(3_000);
        tally.stream(Some(&sizes), &stream);
    }
}
