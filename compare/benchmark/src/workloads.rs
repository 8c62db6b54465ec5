//! The workloads: made, not read, and the same in every run.

use both::random::Numbers;
use origin::sysex::packed;

/// The call that gets the pieces.
#[derive(Debug, Clone, Copy, PartialEq, Eq)]
pub enum Call {
    /// The decoder.
    Feed,
    /// Packing; a piece is raw.
    Pack,
    /// Unpacking; a piece is a packed run.
    Unpack,
    /// The frame reader; a piece is a frame.
    Read,
    /// The frame writer; a piece is the frame that comes of it.
    Write,
    /// The writers of messages for one cable; a piece is a message's status byte and two data bytes, 0 where it has none.
    Send,
}

/// One line of the benchmark.
pub struct Workload {
    /// Its name.
    pub name: &'static str,
    /// What it is, for the page.
    pub what: &'static str,
    /// The time that is aimed at, over the original's.
    pub goal: f64,
    /// The call that is timed.
    pub call: Call,
    /// What one pass hands in.
    pub bytes: Vec<u8>,
    /// The size of the pieces in which it is handed in.
    pub piece: usize,
}

/// All of them, in the order of the table.
#[must_use]
pub fn workloads() -> Vec<Workload> {
    let mut random = Numbers::new();
    let mut all = streams(&mut random);
    all.extend(packing(&mut random));
    all.extend(frames(&mut random));
    all.push(Workload {
        name: "running-out",
        what: "chords, controllers and clocks of a stage, sent a message a call",
        goal: 1.0,
        call: Call::Send,
        bytes: played(&mut Numbers::new()),
        piece: 3,
    });
    all
}

/// Bytes for the decoder; with no size of pieces, all in one.
fn feed(name: &'static str, goal: f64, bytes: Vec<u8>, piece: Option<usize>, what: &'static str) -> Workload {
    let piece = piece.unwrap_or(bytes.len());
    Workload { name, what, goal, call: Call::Feed, bytes, piece }
}

fn streams(random: &mut Numbers) -> Vec<Workload> {
    let short = edit_dumps(random, 8);
    let long = names_dumps(random, 2);
    let mixed = [&short[..], &long[..2354]].concat();
    let (struck, held) = (notes(random), running(random));
    let mut all = vec![
        feed("notes", 0.6, struck.clone(), None, "notes on and off, each with its status byte, as one stream"),
        feed("notes-running", 0.75, held.clone(), None, "notes under one running status, as one stream"),
        feed("dump-289", 0.25, short.clone(), Some(289), "edit buffer dumps of 289 bytes, one a call"),
        feed("dump-2354", 0.15, long.clone(), Some(2354), "bank name dumps of 2,354 bytes, one a call"),
        feed("clocked-289", 0.6, clocked(&short, 289), Some(289 + 12), "the dumps of dump-289 with a clock behind each 24 bytes"),
        feed("clocked-2354", 0.6, clocked(&long, 2354), Some(2354 + 98), "the dumps of dump-2354 with a clock behind each 24 bytes"),
        feed("pieces-64", 0.45, mixed.clone(), Some(64), "eight dumps of 289 bytes and one of 2,354, handed in in pieces of 64 bytes"),
        feed("pieces-1", 1.05, mixed, Some(1), "the stream of pieces-64, one byte a call"),
        feed("frames-8", 0.8, requests(random, 128), Some(8), "requests of 8 bytes, one a call"),
        feed("clocks", 1.15, vec![0xF8; 1024], Some(1), "clocks and nothing else, one a call"),
        feed("random", 0.85, random.bytes(65_536), None, "bytes at random, as one stream"),
        feed("stray", 0.1, random.data(4096), None, "data bytes outside any message, as one stream"),
    ];
    all.extend(stage(struck, held));
    all
}

/// What else a stage has. These have numbers of their own, so that the bytes of the other workloads stay as they were.
fn stage(struck: Vec<u8>, held: Vec<u8>) -> Vec<Workload> {
    let random = &mut Numbers::new();
    let code = time_code(random);
    let both = code.chunks(2).zip(struck.chunks(3)).flat_map(|(quarter, note)| [quarter, note].concat()).collect();
    vec![
        feed("timecode", 0.95, code.clone(), None, "time code quarter frames, as one stream"),
        feed("timecode-2", 0.85, code, Some(2), "the stream of timecode, two bytes a call"),
        feed("position", 1.0, positions(random), None, "song positions and tune requests in turn, as one stream"),
        feed("notes-1", 1.2, struck, Some(1), "the stream of notes, one byte a call"),
        feed("running-1", 1.4, held, Some(1), "the stream of notes-running, one byte a call"),
        feed("controls-clocked", 1.2, controls(random), None, "control changes, each with a clock inside, as one stream"),
        feed("notes-timecode", 0.75, both, None, "the streams of timecode and notes, a message of each in turn, as one stream"),
    ]
}

fn packing(random: &mut Numbers) -> Vec<Workload> {
    let mut of = |call, name, goal, piece, count| {
        let (what, bytes) = match call {
            Call::Pack => ("raw bytes packed, so many a call", random.bytes(piece * count)),
            _ => ("the packed run of so many raw bytes unpacked, one a call", random.data(piece * count)),
        };
        Workload { name, what, goal, call, bytes, piece }
    };
    vec![
        of(Call::Pack, "pack-16", 0.55, 16, 128),
        of(Call::Pack, "pack-245", 0.4, 245, 16),
        of(Call::Pack, "pack-2048", 0.4, 2048, 2),
        of(Call::Unpack, "unpack-16", 0.75, packed::packed_len(16), 128),
        of(Call::Unpack, "unpack-245", 0.75, packed::packed_len(245), 16),
        of(Call::Unpack, "unpack-2048", 0.75, packed::packed_len(2048), 2),
    ]
}

fn frames(random: &mut Numbers) -> Vec<Workload> {
    let (small, middle, long) = (requests(random, 64), program_dumps(random, 8), names_dumps(random, 2));
    let of = |call, name, goal, bytes: &[u8], piece, what| Workload { name, what, goal, call, bytes: bytes.to_vec(), piece };
    vec![
        of(Call::Read, "read-8", 0.6, &small, 8, "requests of 8 bytes, read"),
        of(Call::Read, "read-291", 0.15, &middle, 291, "program dumps of 291 bytes, read"),
        of(Call::Read, "read-2354", 0.1, &long, 2354, "bank name dumps of 2,354 bytes, read"),
        of(Call::Write, "write-8", 0.6, &small, 8, "the records of read-8, written"),
        of(Call::Write, "write-291", 0.25, &middle, 291, "the records of read-291, written"),
        of(Call::Write, "write-2354", 0.15, &long, 2354, "the records of read-2354, written"),
    ]
}

/// A key is struck and let go, each time another one on another channel.
fn notes(random: &mut Numbers) -> Vec<u8> {
    let mut bytes = Vec::new();
    for _ in 0..512 {
        let (channel, key) = (random.byte() % 16, random.data_byte());
        bytes.extend_from_slice(&[0x90 + channel, key, random.data_byte(), 0x80 + channel, key, random.data_byte()]);
    }
    bytes
}

/// One status byte, then keys and velocities.
fn running(random: &mut Numbers) -> Vec<u8> {
    let mut bytes = vec![0x90];
    bytes.extend(random.data(2 * 1024));
    bytes
}

/// Quarter frames: the eight of a time in turn, each with four bits of it.
fn time_code(random: &mut Numbers) -> Vec<u8> {
    (0..1024).flat_map(|count: u16| [0xF1, (count % 8) as u8 * 16 + random.byte() % 16]).collect()
}

/// Song positions, each with a tune request behind it.
fn positions(random: &mut Numbers) -> Vec<u8> {
    (0..512).flat_map(|_| [0xF2, random.data_byte(), random.data_byte(), 0xF6]).collect()
}

/// Control changes with a clock behind the status byte and behind the controller in turn.
fn controls(random: &mut Numbers) -> Vec<u8> {
    let mut bytes = Vec::new();
    for count in 0..1024 {
        let (status, controller, value) = (0xB0 + random.byte() % 16, random.data_byte(), random.data_byte());
        bytes.extend_from_slice(&if count % 2 == 0 { [status, 0xF8, controller, value] } else { [status, controller, 0xF8, value] });
    }
    bytes
}

/// What a player sends, three bytes a message: chords, let go by velocity 0, with runs of a controller while some are held, now and then a program on
/// another channel, and clocks between.
fn played(random: &mut Numbers) -> Vec<u8> {
    let (mut messages, mut channel) = (Vec::new(), 0);
    for _ in 0..128 {
        if random.below(8) == 0 {
            channel = random.byte() % 16;
            messages.push([0xC0 + channel, random.data_byte(), 0]);
        }
        let (root, keys) = (36 + random.byte() % 48, &[0, 4, 7, 12][..3 + random.below(2)]);
        messages.extend(keys.iter().map(|key| [0x90 + channel, root + key, 1 + random.byte() % 127]));
        if random.below(3) == 0 {
            let controller = *random.one(&[1, 7, 11, 74]);
            messages.extend((0..4 + random.below(12)).map(|_| [0xB0 + channel, controller, random.data_byte()]));
        }
        messages.extend(keys.iter().map(|key| [0x90 + channel, root + key, 0]));
    }
    messages.iter().flat_map(|message| if random.below(6) == 0 { [&[0xF8, 0, 0], &message[..]].concat() } else { message.to_vec() }).collect()
}

/// Frames of a command to any device, each with a prefix and a run of so many data bytes.
fn dumps(random: &mut Numbers, count: usize, command: u8, prefix: fn(&mut Numbers) -> Vec<u8>, run: usize) -> Vec<u8> {
    let mut bytes = Vec::new();
    for _ in 0..count {
        bytes.extend_from_slice(&[0xF0, 0x00, 0x20, 0x32, 0x20, *random.one(&[0x00, 0x05, 0x0F, 0x7F]), command]);
        bytes.extend(prefix(random));
        bytes.extend(random.data(run));
        bytes.push(0xF7);
    }
    bytes
}

/// Frames of 289 bytes.
fn edit_dumps(random: &mut Numbers, count: usize) -> Vec<u8> {
    dumps(random, count, 0x04, |_| vec![7], 280)
}

/// Frames of 291 bytes.
fn program_dumps(random: &mut Numbers, count: usize) -> Vec<u8> {
    dumps(random, count, 0x02, |random| vec![7, random.byte() % 8, random.data_byte()], 280)
}

/// Frames of 2,354 bytes.
fn names_dumps(random: &mut Numbers, count: usize) -> Vec<u8> {
    dumps(random, count, 0x0B, |random| vec![6 + random.byte() % 2, random.byte() % 8], 2344)
}

/// Frames of 8 bytes, of all the commands that have no payload.
fn requests(random: &mut Numbers, count: usize) -> Vec<u8> {
    (0..count)
        .flat_map(|_| {
            let command = *random.one(&[0x03, 0x05, 0x0E, 0x11, 0x1B, 0x1D]);
            dumps(random, 1, command, |_| Vec::new(), 0)
        })
        .collect()
}

/// Each frame with a clock behind each 24 of its bytes.
fn clocked(bytes: &[u8], frame: usize) -> Vec<u8> {
    let mut woven = Vec::new();
    for frame in bytes.chunks(frame) {
        for part in frame.chunks(24) {
            woven.extend_from_slice(part);
            if part.len() == 24 {
                woven.push(0xF8);
            }
        }
    }
    woven
}
