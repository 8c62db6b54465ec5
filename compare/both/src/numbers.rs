//! Small numbers, lengths, packed runs and channel messages.

use words::Request;

use crate::random::Numbers;
use crate::{Size, Tally};

pub fn ask(tally: &mut Tally, random: &mut Numbers, size: Size) {
    bytes(tally);
    lengths(tally, random, size);
    runs(tally, random, size);
    channel_messages(tally, random, size);
}

/// Every byte to every word that takes one.
fn bytes(tally: &mut Tally) {
    let words: [fn(u8) -> Request; 11] = [
        Request::Bank,
        Request::Program,
        Request::Pattern,
        Request::Version,
        Request::Device,
        Request::Channel,
        Request::Interface,
        Request::Command,
        Request::RawLen,
        Request::DataLen,
        Request::Rt,
    ];
    for word in words {
        for n in 0..=255 {
            tally.ask(&word(n));
        }
    }
}

/// Every small length, those about powers of two, those about the longest whose packed length fits, and some at random.
fn lengths(tally: &mut Tally, random: &mut Numbers, size: Size) {
    let longest_packed = u64::MAX / 8 * 7;
    let powers = (3..64).flat_map(|power| (1_u64 << power) - 9..=(1_u64 << power) + 9);
    let edges = (longest_packed - 20..=longest_packed + 20).chain(u64::MAX - 40..=u64::MAX);
    let any = (0..size.pick(10_000, 500_000)).map(|_| u64::from_le_bytes([(); 8].map(|()| random.byte())));
    for n in (0..size.pick(20_000, 500_000) as u64).chain(powers).chain(edges).chain(any) {
        tally.ask(&Request::PackedLen(n));
        tally.ask(&Request::UnpackedLen(n));
    }
}

/// Runs of every length to 80 and about the lengths of the dumps, into rooms about the length that is needed.
fn runs(tally: &mut Tally, random: &mut Numbers, size: Size) {
    let dumps = [16, 26, 45, 65, 242, 245, 280, 512, 592, 2048, 2344];
    let lengths: Vec<usize> = (0..80).chain(dumps.iter().flat_map(|dump| dump - 4..dump + 9)).collect();
    for _ in 0..size.pick(2, 40) {
        for length in &lengths {
            let bytes = random.bytes(*length);
            let packed = length.div_ceil(7) * 8;
            let unpacked = length / 8 * 7 + (length % 8).saturating_sub(1);
            for needed in [packed, unpacked] {
                for room in [0, needed.saturating_sub(1), needed, needed + 1, needed + random.below(40)] {
                    tally.ask(&Request::Pack { bytes: bytes.clone(), out: random.bytes(room) });
                    tally.ask(&Request::Unpack { bytes: bytes.clone(), out: random.bytes(room) });
                }
            }
        }
    }
}

/// Every nibble and channel with every edge of its data, into rooms about the length that is needed; then at random.
fn channel_messages(tally: &mut Tally, random: &mut Numbers, size: Size) {
    let bends = [0, 1, 127, 128, 255, 256, 8191, 8192, 16383, 16384, 32767, 32768, 65535];
    let data = [0, 1, 63, 64, 127, 128, 129, 255];
    let mut ask = |nibble: u8, channel: u8, a: u16, b: u8, room: usize| {
        tally.ask(&Request::Chan { nibble, channel, a, b, out: vec![0x55; room] });
    };
    for nibble in (0x80..=0xE0_u8).step_by(16) {
        let firsts: &[u16] = if nibble == 0xE0 { &bends } else { &data };
        for channel in 0..=255 {
            for a in firsts {
                for b in [0, 5, 127, 128, 255] {
                    for room in 0..=4 {
                        ask(nibble, channel, *a, b, room);
                    }
                }
            }
        }
    }
    for _ in 0..size.pick(100_000, 2_000_000) {
        let nibble = 0x80 + 16 * random.below(7) as u8;
        let a = if nibble == 0xE0 { random.below(65_536) } else { random.below(256) };
        ask(nibble, random.mostly_below(16), a as u16, random.byte(), random.below(6));
    }
}
