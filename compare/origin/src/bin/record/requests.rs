//! The requests that are recorded: those at every limit, picked by hand, and drawn ones.

use words::hex;

use super::drawn::Drawn;
use super::LIMIT;

/// Command byte, payload bytes ahead of a run, and the run lengths about its limits; none for a command without a run.
const COMMANDS: [(u8, usize, &[usize]); 22] = [
    (0x00, 1, &[]),
    (0x01, 2, &[]),
    (0x02, 3, &[276, 277, 278, 279, 280, 281, 282, 283, 284, 285, 286, 287, 288]),
    (0x03, 0, &[]),
    (0x04, 1, &[0, 276, 277, 278, 279, 280, 281, 282, 283, 284, 285, 286, 287, 288]),
    (0x05, 0, &[]),
    (0x06, 1, &[51, 52, 53, 54, 55, 56, 57, 58, 59, 60]),
    (0x07, 1, &[]),
    (0x08, 1, &[0, 1, 73, 74, 75, 76, 77, 78, 79, 80, 81, 82, 83, 84]),
    (0x09, 3, &[]),
    (0x0A, 1, &[]),
    (0x0B, 2, &[2340, 2341, 2344, 2345, 2346, 2348, 2349]),
    (0x0C, 2, &[]),
    (0x0D, 2, &[0, 18, 19, 20, 21, 22, 23, 24, 25, 26, 27]),
    (0x0E, 0, &[]),
    (0x10, 5, &[]),
    (0x11, 0, &[]),
    (0x12, 1, &[0, 1, 2, 7, 8, 9, 10, 16, 17, 33]),
    (0x1B, 0, &[]),
    (0x1C, 1, &[29, 30, 31, 32, 33, 34, 37, 38]),
    (0x1D, 0, &[]),
    (0x1E, 1, &[585, 586, 592, 593]),
];

/// Every request, the same in each run; some stand in it more than once.
pub fn all() -> Vec<String> {
    let mut drawn = Drawn(20_250_101);
    let mut requests = numbers(&mut drawn);
    requests.extend(packed(&mut drawn));
    requests.extend(channel(&mut drawn));
    requests.extend(streams(&mut drawn));
    requests.extend(frames(&mut drawn));
    requests.extend(written(&mut drawn));
    requests.extend(inquiries(&mut drawn));
    requests
}

/// Every byte for every word of one small number; lengths near the groups' ends, near the machine's and drawn.
fn numbers(drawn: &mut Drawn) -> Vec<String> {
    let small = ["bank", "program", "pattern", "version", "device", "channel", "interface", "command", "rawlen", "datalen", "rt"];
    let mut requests: Vec<String> = small.iter().flat_map(|word| (0..=255).map(move |n| format!("{word} {n}"))).collect();
    let top = u64::MAX / 8 * 7;
    for n in (0..=64).chain([65, 128, 242, 245, 280, 2048, 2344]).chain(top - 8..=top) {
        requests.push(format!("plen {n}"));
    }
    for n in (0..=72).chain([277, 280, 281, 2341, 2344, 2345]).chain(u64::MAX - 16..=u64::MAX) {
        requests.push(format!("ulen {n}"));
    }
    for _ in 0..60 {
        let n = drawn.next() >> drawn.below(60);
        requests.push(format!("ulen {n}"));
        requests.push(format!("plen {}", n / 8 * 7));
    }
    requests
}

/// A buffer with contents of its own.
fn buffer(drawn: &mut Drawn, len: usize) -> String {
    hex(&drawn.bytes(len))
}

/// Runs of every length up to three groups into buffers that fit, are one longer, one shorter or empty; drawn ones behind.
fn packed(drawn: &mut Drawn) -> Vec<String> {
    let mut requests = vec!["pack - -".to_string(), format!("pack 80 {}", hex(&[0x55; 8])), "unpack 020101 0000".to_string()];
    requests.push(format!("pack {} {}", hex(&[0xFF; 7]), hex(&[0; 8])));
    requests.push(format!("pack f1b8f411ba8f8796ae0580 {}", hex(&[0x55; 15])));
    for len in 0..=22usize {
        let needed = len.div_ceil(7) * 8;
        for room in [needed, needed + 1, needed.saturating_sub(1), needed / 2] {
            requests.push(format!("pack {} {}", hex(&drawn.bytes(len)), buffer(drawn, room)));
        }
    }
    for len in 0..=26usize {
        let needed = len / 8 * 7 + (len % 8).saturating_sub(1);
        for room in [needed, needed + 1, needed.saturating_sub(1), 0] {
            requests.push(format!("unpack {} {}", hex(&drawn.bytes(len)), buffer(drawn, room)));
        }
    }
    for len in [64usize, 242, 245] {
        requests.push(format!("pack {} {}", hex(&drawn.bytes(len)), buffer(drawn, len.div_ceil(7) * 8)));
    }
    for len in [64, 277, 280, 281] {
        requests.push(format!("unpack {} {}", hex(&drawn.bytes(len)), buffer(drawn, 245)));
    }
    requests
}

/// Each kind at the ends of its ranges, beyond them, and in buffers too short.
fn channel(drawn: &mut Drawn) -> Vec<String> {
    let mut requests = vec!["chan 224 3 8192 0 000000".to_string()];
    for nibble in (128..=224).step_by(16) {
        let tops: &[u64] = if nibble == 224 { &[0, 1, 127, 128, 8192, 16383, 16384, 65535] } else { &[0, 1, 60, 127, 128, 255] };
        for a in tops {
            for b in [0, 64, 127, 128, 255] {
                requests.push(format!("chan {nibble} {} {a} {b} {}", drawn.below(16), buffer(drawn, 3)));
            }
        }
        for room in [0, 1, 2, 3, 4] {
            requests.push(format!("chan {nibble} {} {} {} {}", drawn.below(16), drawn.byte(), drawn.byte(), buffer(drawn, room)));
        }
        for channel in 0..=16 {
            requests.push(format!("chan {nibble} {channel} {} {} {}", drawn.byte(), drawn.byte(), buffer(drawn, 3)));
        }
    }
    requests
}

/// One message of a stream, with its status byte, a running status, a frame, a stray byte or a real-time byte.
fn piece(drawn: &mut Drawn) -> Vec<u8> {
    match drawn.below(12) {
        0..=3 => {
            let status = 0x80 + drawn.below(0x70) as u8;
            let mut bytes = vec![status];
            let count = if (0xC0..0xE0).contains(&status) { 1 } else { 2 };
            bytes.extend(drawn.data(count));
            bytes
        }
        4 => drawn.data(2),
        5 => vec![0xF1 + drawn.below(6) as u8],
        6 => {
            let mut bytes = vec![0xF1 + drawn.below(3) as u8];
            let count = drawn.below(3) as usize;
            bytes.extend(drawn.data(count));
            bytes
        }
        7 => vec![0xF8 + drawn.below(8) as u8],
        8 | 9 => {
            let mut bytes = vec![0xF0];
            let count = drawn.below(9) as usize;
            bytes.extend(drawn.data(count));
            if drawn.below(4) > 0 {
                bytes.push(0xF7);
            }
            bytes
        }
        10 => vec![0xF7],
        _ => {
            let count = 1 + drawn.below(3) as usize;
            drawn.bytes(count)
        }
    }
}

fn stream(drawn: &mut Drawn, pieces: u64) -> Vec<u8> {
    (0..pieces).flat_map(|_| piece(drawn)).collect()
}

/// The marked rows, every status byte inside and outside a frame, frames about the limit, and drawn streams; whole and in pieces.
fn streams(drawn: &mut Drawn) -> Vec<String> {
    let rows = ["903c403c00", "e00040", "f001f802f7", "f001f6", "f2010205", "903c403c00e00040f001f802f7f001f6f2010205", "-", "f7", "f0f7"];
    let mut requests: Vec<String> = rows.iter().map(|row| format!("feed {row}")).collect();
    for status in 0x80..=0xFFu8 {
        requests.push(format!("feed {}", hex(&[status, 1, 2, 3, 4])));
        requests.push(format!("feed {}", hex(&[0x90, 1, status, 2, 3, 4])));
        requests.push(format!("feed {}", hex(&[0xF0, 1, status, 2, 3, 4, 0xF7])));
    }
    for count in LIMIT - 3..=LIMIT + 1 {
        let mut bytes = vec![0xF0];
        bytes.extend(drawn.data(count));
        for end in [vec![0xF7], vec![0x90, 60, 64], vec![0xF8, 0x01, 0xF7, 0xF1, 5]] {
            requests.push(format!("feed {}", hex(&[bytes.as_slice(), end.as_slice()].concat())));
        }
        requests.push(format!("chunks 1000,7,999 {}", hex(&[bytes.as_slice(), &[0xF7, 0x01]].concat())));
    }
    for _ in 0..500 {
        let pieces = 1 + drawn.below(12);
        requests.push(format!("feed {}", hex(&stream(drawn, pieces))));
    }
    requests.push("chunks 6,3,1 40f1fe5bf468c07355".to_string());
    requests.push("chunks 0,1 f001f6".to_string());
    for _ in 0..300 {
        let pieces = 1 + drawn.below(14);
        let bytes = stream(drawn, pieces);
        let mut sizes: Vec<String> = (0..drawn.below(4)).map(|_| drawn.below(9).to_string()).collect();
        sizes.push((1 + drawn.below(9)).to_string());
        requests.push(format!("chunks {} {}", sizes.join(","), hex(&bytes)));
    }
    requests
}

/// A frame from its parts.
fn row(device: u8, command: u8, payload: &[u8]) -> Vec<u8> {
    [&[0xF0, 0x00, 0x20, 0x32, 0x20, device, command], payload, &[0xF7]].concat()
}

/// Payload bytes ahead of a run: in range, or one of them out of it.
fn prefix(drawn: &mut Drawn, command: u8, len: usize, wild: bool) -> Vec<u8> {
    let mut bytes: Vec<u8> = match command {
        0x00 => drawn.data(1),
        0x07 => vec![drawn.below(32) as u8],
        0x09 => vec![drawn.below(8) as u8, drawn.below(128) as u8, drawn.below(128) as u8],
        0x01 | 0x0A | 0x0C => vec![drawn.below(8) as u8, drawn.below(128) as u8],
        0x10 => [drawn.data(2), vec![drawn.below(3) as u8, drawn.below(8) as u8, drawn.below(128) as u8]].concat(),
        _ => vec![6 + drawn.below(2) as u8, drawn.below(8) as u8, drawn.below(128) as u8],
    };
    bytes.truncate(len);
    if wild && !bytes.is_empty() {
        let at = drawn.below(bytes.len() as u64) as usize;
        bytes[at] = *drawn.one(&[3, 5, 8, 9, 32, 33, 64, 127]);
    }
    bytes
}

/// A good or nearly good frame of each command.
fn drawn_frame(drawn: &mut Drawn, command: (u8, usize, &[usize]), run: usize, wild: bool) -> Vec<u8> {
    let mut payload = prefix(drawn, command.0, command.1, wild);
    payload.extend(drawn.data(run));
    let device = *drawn.one(&[0, 1, 15, 0x7F]);
    row(device, command.0, &payload)
}

/// Each command with every run length near its limits, payloads one short and one long, and damaged copies of good frames.
fn frames(drawn: &mut Drawn) -> Vec<String> {
    let marked = ["f0002032200003f7", "f0002032207f0720f7", "f00020322000010009f7", "f0002033200003f7", "f000203220000700f7", "f00020322000020601f7"];
    let mut requests: Vec<String> = marked.iter().map(|row| format!("frame {row}")).collect();
    let mut good = Vec::new();
    for command in COMMANDS {
        let runs: &[usize] = if command.2.is_empty() { &[0] } else { command.2 };
        for run in runs {
            let calm = drawn_frame(drawn, command, *run, false);
            requests.push(format!("frame {}", hex(&calm)));
            if *run < 1000 {
                let wild = drawn_frame(drawn, command, *run, true);
                requests.push(format!("frame {}", hex(&wild)));
            }
            if calm.len() < 100 {
                good.push(calm);
            }
        }
        for payload in 0..=command.1 + 1 {
            let mut bytes = prefix(drawn, command.0, command.1, false);
            bytes.resize(payload, 6);
            requests.push(format!("frame {}", hex(&row(0, command.0, &bytes))));
        }
    }
    for pattern in [0, 31, 32, 127] {
        for run in [80, 82] {
            let payload = [vec![7, pattern], drawn.data(run)].concat();
            requests.push(format!("frame {}", hex(&row(2, 0x08, &payload))));
        }
    }
    for byte in 0..=255 {
        requests.push(format!("frame {}", hex(&row(byte, 3, &[]))));
        requests.push(format!("frame {}", hex(&row(0, byte, &[]))));
    }
    for len in 0..=8 {
        requests.push(format!("frame {}", hex(&row(0, 3, &[])[..len])));
        requests.push(format!("frame {}", hex(&[&[0xF0], drawn.data(len).as_slice(), &[0xF7]].concat())));
    }
    for _ in 0..400 {
        let mut bytes = drawn.one(&good).clone();
        let at = drawn.below(bytes.len() as u64) as usize;
        match drawn.below(3) {
            0 => bytes[at] = drawn.byte(),
            1 => {
                bytes.remove(at);
            }
            _ => bytes.insert(at, drawn.byte()),
        }
        requests.push(format!("frame {}", hex(&bytes)));
    }
    requests
}

/// A record's words, from the device to the run.
fn head(drawn: &mut Drawn, command: u8, run: &[u8]) -> String {
    let device = ["all", "u0", "u7", "u15"][drawn.below(4) as usize];
    let (bank, program, last) = (drawn.below(8), drawn.below(128), drawn.below(128));
    let (pattern, has, interface) = (drawn.below(32), drawn.below(2), drawn.below(3));
    let (rx, tx) = (drawn.below(128), drawn.below(128));
    let version = 6 + drawn.below(2);
    let free = drawn.below(128);
    format!("{device} {command} {free} {version} {bank} {program} {last} {pattern} {has} {interface} {rx} {tx} {}", hex(run))
}

/// Records in range, with runs about each limit; buffers that fit, are longer, one shorter or empty; and bytes of 80 and above.
fn written(drawn: &mut Drawn) -> Vec<String> {
    let mut requests = Vec::new();
    for command in COMMANDS {
        let runs: &[usize] = if command.2.is_empty() { &[0, 3] } else { command.2 };
        for run in runs {
            let run = drawn.data(*run);
            let head = head(drawn, command.0, &run);
            requests.push(format!("readback {head}"));
            if run.len() > 1000 {
                continue;
            }
            let most = 9 + command.1 + if command.2.is_empty() { 0 } else { run.len() };
            for room in [most, most - 1, most - 2] {
                requests.push(format!("fwrite {head} {}", buffer(drawn, room)));
            }
        }
        for _ in 0..4 {
            let mut run = drawn.data(6);
            run[drawn.below(6) as usize] = 128 + drawn.byte() % 128;
            let head = head(drawn, command.0, &run);
            requests.push(format!("readback {head}"));
            requests.push(format!("fwrite {head} {}", buffer(drawn, 24)));
        }
        let short = head(drawn, command.0, &[]);
        requests.push(format!("fwrite {short} -"));
    }
    let names = head(drawn, 0x0B, &drawn_run(2344));
    requests.push(format!("fwrite {names} {}", hex(&vec![0x55; 2355])));
    for (rx, tx, free) in [(200, 3, 0), (3, 128, 0), (0, 0, 255)] {
        for command in [0, 16] {
            let head = format!("u0 {command} {free} 7 0 0 0 0 0 1 {rx} {tx} -");
            requests.push(format!("fwrite {head} {}", hex(&[0xAA; 14])));
            requests.push(format!("readback {head}"));
        }
    }
    requests
}

/// A run whose bytes count up.
fn drawn_run(len: usize) -> Vec<u8> {
    (0..len).map(|at| (at % 128) as u8).collect()
}

/// Requests and replies with each byte changed, one byte more and one fewer; both writers into every room about their lengths.
fn inquiries(drawn: &mut Drawn) -> Vec<String> {
    let request = [0xF0, 0x7E, 0x00, 0x06, 0x01, 0xF7];
    let reply = [0xF0, 0x7E, 0x7F, 0x06, 0x02, 0x00, 0x20, 0x32, 0x20, 0x00, 0x01, 0x00, 0x12, 0x45, 0x06, 0x07, 0xF7];
    let mut requests = Vec::new();
    for (word, good) in [("ireq", request.as_slice()), ("irep", reply.as_slice())] {
        requests.push(format!("{word} {}", hex(good)));
        for at in 0..good.len() {
            for value in [0, 1, 0x0F, 0x10, 0x7F, 0x80, 0xF0, 0xF7, 0xFF] {
                let mut bytes = good.to_vec();
                bytes[at] = value;
                requests.push(format!("{word} {}", hex(&bytes)));
            }
            let mut fewer = good.to_vec();
            fewer.remove(at);
            requests.push(format!("{word} {}", hex(&fewer)));
            let mut more = good.to_vec();
            more.insert(at, drawn.byte());
            requests.push(format!("{word} {}", hex(&more)));
        }
        for device in 0..=127 {
            let mut bytes = good.to_vec();
            bytes[2] = device;
            requests.push(format!("{word} {}", hex(&bytes)));
        }
    }
    for version in 0..=255u8 {
        let mut bytes = reply;
        (bytes[12], bytes[13], bytes[14], bytes[15]) = (version, drawn.byte(), drawn.byte(), drawn.byte());
        requests.push(format!("irep {}", hex(&bytes)));
    }
    for device in ["all", "u0", "u5", "u15"] {
        for room in [0, 5, 6, 7, 16, 17, 18] {
            requests.push(format!("wreq {device} {}", buffer(drawn, room)));
            let (major, minor, first, second) = (drawn.byte(), drawn.byte(), drawn.byte(), drawn.byte());
            requests.push(format!("wrep {device} {major} {minor} {first} {second} {}", buffer(drawn, room)));
        }
    }
    for _ in 0..60 {
        let (major, minor, first, second) = (drawn.byte(), drawn.byte(), drawn.byte(), drawn.byte());
        requests.push(format!("wrep u{} {major} {minor} {first} {second} {}", drawn.below(16), buffer(drawn, 17)));
    }
    requests
}
