//! The words of frames, identity and held keys.

use words::{hex, Answer, Device, Head};

use crate::bench::{plain, refused};
use crate::ffi::{self, HELD_LEN};

/// A device as two numbers: everyone, and the unit.
fn numbers(device: Device) -> (u8, u8) {
    match device {
        Device::All => (1, 0),
        Device::Unit(unit) => (0, unit),
    }
}

/// The device byte of a reader's two numbers.
fn device_byte(everyone: u64, unit: u64) -> u64 {
    if everyone == 1 {
        0x7F
    } else {
        unit
    }
}

/// The record of a frame.
pub fn frame(bytes: &[u8]) -> Answer {
    let read = ffi::frame_read(bytes);
    if read.number != 0 {
        return refused(read.number, &read.details);
    }
    let run = (read.run_start as usize).checked_add(read.run_len as usize).and_then(|end| bytes.get(read.run_start as usize..end));
    let Some(run) = run else {
        return Answer::What("the run lies outside the bytes".to_string());
    };
    Answer::Ok(format!(
        "dev={} cmd={} free={} ver={} bank={} prog={} last={} pat={} has={} ifc={} rx={} tx={} run={}",
        device_byte(read.everyone, read.unit),
        read.command,
        read.free,
        read.version,
        read.bank,
        read.program,
        read.last,
        read.pattern,
        read.has_pattern,
        read.interface,
        read.rx,
        read.tx,
        hex(run),
    ))
}

/// Writes a record.
pub fn write(head: &Head, out: &mut [u8]) -> ffi::Answer {
    let (everyone, unit) = numbers(head.device);
    ffi::frame_write(
        everyone,
        unit,
        head.command,
        head.free,
        head.version,
        head.bank,
        head.program,
        head.last,
        head.pattern,
        u8::from(head.has),
        head.interface,
        head.rx,
        head.tx,
        &head.run,
        out,
    )
}

/// Writes a record where there is room enough for any, and reads it again.
pub fn read_back(head: &Head) -> Answer {
    let mut out = vec![0x55; head.run.len() + 13];
    let written = write(head, &mut out);
    match written.number {
        0 => frame(out.get(..written.value as usize).unwrap_or_default()),
        _ => plain(written),
    }
}

/// The device that an identity request is for.
pub fn inquiry_request(bytes: &[u8]) -> Answer {
    let read = ffi::request_read(bytes);
    match read.number {
        0 => Answer::number(device_byte(read.everyone, read.unit)),
        number => refused(number, &[read.detail0]),
    }
}

/// What an identity reply says.
pub fn inquiry_reply(bytes: &[u8]) -> Answer {
    let read = ffi::reply_read(bytes);
    if read.number != 0 {
        return refused(read.number, &[read.detail0]);
    }
    let device = device_byte(read.everyone, read.unit);
    Answer::Ok(format!("dev={device} fw={}.{} voice={},{}", read.major, read.minor, read.voice_major, read.voice_minor))
}

/// Writes an identity request.
pub fn write_request(device: Device, out: &mut [u8]) -> Answer {
    let (everyone, unit) = numbers(device);
    plain(ffi::request_write(everyone, unit, out))
}

/// Writes an identity reply: firmware as major and minor, then the two voice bytes.
pub fn write_reply(device: Device, firmware: [u8; 2], voice: [u8; 2], out: &mut [u8]) -> Answer {
    let (everyone, unit) = numbers(device);
    plain(ffi::reply_write(everyone, unit, firmware[0], firmware[1], voice[0], voice[1], out))
}

/// Applies messages to a fresh record, one after another, and asks it.
pub fn held(messages: &[[u16; 4]]) -> Answer {
    let mut keys = [0xFF; HELD_LEN];
    let fresh = ffi::held_fresh(&mut keys);
    if fresh.number != 0 {
        return plain(fresh);
    }
    let byte = |number: u16| (number % 256) as u8;
    let mut said = String::new();
    for [nibble, channel, a, b] in messages {
        let answer = ffi::held_apply(&mut keys, byte(*nibble), byte(*channel), *a, byte(*b));
        match answer.number {
            0 => said.push('.'),
            number => said.push_str(&format!("no{number},{}", answer.details[0])),
        }
    }
    let counts: Vec<String> = (0..16).map(|channel| ffi::held_count(&keys, channel).value.to_string()).collect();
    let first = ffi::held_first(&keys);
    let first = if first.found == 1 { format!("{},{}", first.channel, first.key) } else { "none".to_string() };
    if !said.is_empty() {
        said.push(' ');
    }
    Answer::Ok(format!("{said}counts={} first={first}", counts.join(",")))
}
