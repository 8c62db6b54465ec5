//! Identity requests and replies.

use words::{Device, Request};

use crate::random::Numbers;
use crate::{Size, Tally};

const REQUEST: [u8; 6] = [0xF0, 0x7E, 0x7F, 0x06, 0x01, 0xF7];
const REPLY: [u8; 17] = [0xF0, 0x7E, 0x00, 0x06, 0x02, 0x00, 0x20, 0x32, 0x20, 0x00, 0x01, 0x00, 0x12, 0x00, 0x06, 0x07, 0xF7];

pub fn ask(tally: &mut Tally, random: &mut Numbers, size: Size) {
    for bytes in [&REQUEST[..], &REPLY[..]] {
        every_byte_altered(tally, bytes);
        every_length(tally, bytes, random);
        damaged_at_random(tally, bytes, random, size);
    }
    every_writer(tally, random, size);
}

/// Both readers get the same bytes.
fn read(tally: &mut Tally, bytes: &[u8]) {
    tally.ask(&Request::InquiryRequest(bytes.to_vec()));
    tally.ask(&Request::InquiryReply(bytes.to_vec()));
}

/// Every byte replaced by every value, the device byte too.
fn every_byte_altered(tally: &mut Tally, bytes: &[u8]) {
    for place in 0..bytes.len() {
        for byte in 0..=255 {
            let mut altered = bytes.to_vec();
            altered[place] = byte;
            read(tally, &altered);
            for device in [0x0F, 0x10, 0x7E, 0x7F] {
                altered[2] = device;
                read(tally, &altered);
            }
        }
    }
}

/// Cut short at every length, with and without an F7, and made longer.
fn every_length(tally: &mut Tally, bytes: &[u8], random: &mut Numbers) {
    for length in 0..=bytes.len() {
        let mut short = bytes[..length].to_vec();
        read(tally, &short);
        short.push(0xF7);
        read(tally, &short);
        let mut long = bytes.to_vec();
        long.insert(length, random.data_byte());
        read(tally, &long);
    }
}

fn damaged_at_random(tally: &mut Tally, bytes: &[u8], random: &mut Numbers, size: Size) {
    for _ in 0..size.pick(20_000, 1_000_000) {
        let mut altered = bytes.to_vec();
        for _ in 0..1 + random.below(3) {
            let at = random.below(altered.len());
            match random.below(8) {
                0 => drop(altered.remove(at)),
                1 => altered.insert(at, random.byte()),
                2 => altered[at] = random.byte(),
                _ => altered[at] = random.mostly_below(16),
            }
        }
        read(tally, &altered);
    }
}

/// Every device in every room about the length; every firmware with voices at random.
fn every_writer(tally: &mut Tally, random: &mut Numbers, size: Size) {
    let devices: Vec<Device> = (0..=255).map(Device::Unit).chain([Device::All]).collect();
    for device in &devices {
        for room in 0..20 {
            let voice = [random.byte(), random.byte()];
            tally.ask(&Request::WriteRequest { device: *device, out: random.bytes(room) });
            tally.ask(&Request::WriteReply { device: *device, major: random.byte(), minor: random.byte(), voice, out: random.bytes(room) });
        }
    }
    for major in 0..=255 {
        for minor in 0..=255 {
            for _ in 0..size.pick(1, 8) {
                let device = if random.below(4) == 0 { *random.one(&devices) } else { Device::Unit(random.byte() % 16) };
                let voice = [random.byte(), random.byte()];
                let room = 15 + random.below(5);
                tally.ask(&Request::WriteReply { device, major, minor, voice, out: random.bytes(room) });
            }
        }
    }
}
