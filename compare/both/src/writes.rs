//! The frame writer, and what it wrote read again.

use words::{Device, Head, Request};

use crate::frames::{run_lengths, Kind, KINDS};
use crate::random::Numbers;
use crate::{Size, Tally};

pub fn ask(tally: &mut Tally, random: &mut Numbers, size: Size) {
    every_field(tally, random, size);
    every_run_length(tally, random, size);
    at_random(tally, random, size);
}

/// A record whose fields are all in range, of a kind of frame.
fn good_head(kind: &Kind, run: Vec<u8>, random: &mut Numbers) -> Head {
    Head {
        device: *random.one(&[Device::All, Device::Unit(0), Device::Unit(15)]),
        command: kind.command,
        free: random.data_byte(),
        version: 6 + random.byte() % 2,
        bank: random.byte() % 8,
        program: random.data_byte(),
        last: random.data_byte(),
        pattern: random.byte() % 32,
        has: random.below(2) == 0,
        interface: random.byte() % 3,
        rx: random.data_byte(),
        tx: random.data_byte(),
        run,
    }
}

/// Writes a record into this much room more than a frame without prefix and run needs, and reads it back.
fn both(tally: &mut Tally, head: &Head, room: usize) {
    tally.ask(&Request::FrameWrite { head: head.clone(), out: vec![0x55; room] });
    tally.ask(&Request::ReadBack(head.clone()));
}

/// Every value of every field of every kind, the others in range; with room for all and with none.
fn every_field(tally: &mut Tally, random: &mut Numbers, size: Size) {
    let fields: [fn(&mut Head, u8); 11] = [
        |head, byte| head.device = Device::Unit(byte),
        |head, byte| head.command = byte,
        |head, byte| head.free = byte,
        |head, byte| head.version = byte,
        |head, byte| head.bank = byte,
        |head, byte| head.program = byte,
        |head, byte| head.last = byte,
        |head, byte| head.pattern = byte,
        |head, byte| head.interface = byte,
        |head, byte| head.rx = byte,
        |head, byte| head.tx = byte,
    ];
    for kind in &KINDS {
        for field in fields {
            for byte in 0..=255 {
                for _ in 0..size.pick(1, 4) {
                    let run = random.data(kind.raw.map_or(0, |raw| raw.min(80)));
                    let mut head = good_head(kind, run, random);
                    field(&mut head, byte);
                    both(tally, &head, 100 * random.below(2));
                }
            }
        }
    }
}

/// Every kind with every run length about its limits, in every room about the length that is needed, with runs that hold a high byte too.
fn every_run_length(tally: &mut Tally, random: &mut Numbers, size: Size) {
    for kind in &KINDS {
        for length in kind.raw.map_or(vec![0, 1, 7], run_lengths) {
            for round in 0..size.pick(2, 12) {
                let mut run = random.data(length);
                if round % 2 == 1 && !run.is_empty() {
                    let at = random.below(run.len());
                    run[at] = 0x80 + random.data_byte();
                }
                let head = good_head(kind, run, random);
                for room in 0..=14 {
                    both(tally, &head, (head.run.len() + room).saturating_sub(round * room / 3));
                }
            }
        }
    }
}

/// Records with every field at random, in range and out of it, short runs and long ones, any room about the length.
fn at_random(tally: &mut Tally, random: &mut Numbers, size: Size) {
    for _ in 0..size.pick(150_000, 4_000_000) {
        let kind = random.one(&KINDS);
        let length = match random.below(8) {
            0 => kind.raw.filter(|raw| *raw < 600).map_or(3, |raw| *random.one(&run_lengths(raw))),
            _ => random.below(12),
        };
        let run = if random.below(6) == 0 { random.bytes(length) } else { random.data(length) };
        let mut head = good_head(kind, run, random);
        for _ in 0..random.below(3) {
            alter(&mut head, random);
        }
        let room = (length + random.below(16)).saturating_sub(random.below(3));
        both(tally, &head, room);
    }
}

fn alter(head: &mut Head, random: &mut Numbers) {
    let byte = random.byte();
    match random.below(11) {
        0 => head.device = Device::Unit(random.mostly_below(16)),
        1 => head.command = random.mostly_below(0x20),
        2 => head.free = byte,
        3 => head.version = random.mostly_below(9),
        4 => head.bank = random.mostly_below(8),
        5 => head.program = byte,
        6 => head.last = byte,
        7 => head.pattern = random.mostly_below(32),
        8 => head.interface = random.mostly_below(3),
        9 => head.rx = byte,
        _ => head.tx = byte,
    }
}
