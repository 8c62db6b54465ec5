//! The word `held` beside a model of its own: sixteen rows of 128 flags. The original has no such record.

use engine::bench::Engine;
use engine::ffi::{self, HELD_LEN};
use words::{Bench, Request};

/// Numbers that look random and are the same in every run.
fn next(seed: &mut u64) -> u16 {
    *seed = seed.wrapping_mul(6_364_136_223_846_793_005).wrapping_add(1_442_695_040_888_963_407);
    (*seed >> 40) as u16
}

fn expected(messages: &[[u16; 4]]) -> String {
    let mut held = [[false; 128]; 16];
    let mut said = String::new();
    for [nibble, channel, a, b] in messages {
        let Some(keys) = held.get_mut(usize::from(*channel)) else {
            said += &format!("no17,{channel}");
            continue;
        };
        said.push('.');
        match nibble {
            0x90 => keys[usize::from(a % 128)] = b % 128 != 0,
            0x80 => keys[usize::from(a % 128)] = false,
            _ => {}
        }
    }
    let counts: Vec<String> = held.iter().map(|keys| keys.iter().filter(|key| **key).count().to_string()).collect();
    let mut all = held.iter().enumerate().flat_map(|(channel, keys)| keys.iter().enumerate().map(move |(key, held)| (channel, key, *held)));
    let first = all.find(|(_, _, held)| *held).map_or_else(|| "none".to_string(), |(channel, key, _)| format!("{channel},{key}"));
    let blank = if messages.is_empty() { "" } else { " " };
    format!("ok {said}{blank}counts={} first={first}", counts.join(","))
}

#[test]
fn as_the_model_says() {
    let mut seed = 1;
    for round in 0..4_000 {
        let length = if round % 100 == 0 { 2_000 } else { usize::from(next(&mut seed) % 40) };
        let channels = 1 + next(&mut seed) % 18;
        let messages: Vec<[u16; 4]> = (0..length)
            .map(|_| {
                let nibble = 0x80 + 16 * [0, 0, 1, 1, 1, 2, 3, 4, 5, 6][usize::from(next(&mut seed) % 10)];
                let a = if nibble == 0xE0 { next(&mut seed) } else { next(&mut seed) % 256 };
                let b = [0, 128, 1, 127, 129, 255].get(usize::from(next(&mut seed) % 12)).map_or_else(|| next(&mut seed) % 256, |b| *b);
                [nibble, next(&mut seed) % channels, a, b]
            })
            .collect();
        let answer = Engine::new().answer(&Request::Held(messages.clone()), &mut []);
        assert_eq!(answer.text(), expected(&messages), "{}", Request::Held(messages));
    }
}

/// Every key of every channel is the bit that the header names, and no other: held by a strike, released by a note off and by a soft strike.
#[test]
fn every_key_has_its_bit() {
    for channel in 0..16_u8 {
        for key in 0..=255_u8 {
            let mut bits = [0; HELD_LEN];
            bits[usize::from(channel) * 16 + usize::from(key % 128) / 8] = 1 << (key % 8);
            for velocity in [1, 64, 127, 129, 255] {
                let mut keys = [0; HELD_LEN];
                assert_eq!(ffi::held_apply(&mut keys, 0x90, channel, key.into(), velocity).number, 0);
                assert_eq!(keys, bits, "{channel},{key},{velocity}");
                let first = ffi::held_first(&keys);
                assert_eq!((first.number, first.found, first.channel, first.key), (0, 1, channel.into(), u64::from(key % 128)));
                assert_eq!(ffi::held_apply(&mut keys, 0x90, channel, key.into(), velocity).number, 0);
                assert_eq!(keys, bits, "struck again: {channel},{key},{velocity}");
            }
            for (nibble, velocity) in [(0x80, 0), (0x80, 64), (0x90, 0), (0x90, 128)] {
                let mut full = [0xFF; HELD_LEN];
                assert_eq!(ffi::held_apply(&mut full, nibble, channel, key.into(), velocity).number, 0);
                assert!(full.iter().zip(bits).all(|(left, bit)| *left == !bit), "{nibble},{channel},{key},{velocity}");
                assert_eq!(ffi::held_count(&full, channel).value, 127);
                let mut none = [0; HELD_LEN];
                assert_eq!(ffi::held_apply(&mut none, nibble, channel, key.into(), velocity).number, 0);
                assert_eq!(none, [0; HELD_LEN], "not held: {nibble},{channel},{key},{velocity}");
            }
        }
    }
}

/// A refusal changes nothing: a length that is no record's, a kind that no record names, a channel above 15; in this order.
#[test]
fn refusals_change_nothing() {
    for length in [0, 1, 255, 257, 512] {
        let mut keys = vec![0x5A; length];
        assert_eq!(ffi::held_fresh(&mut keys).number, 20);
        assert_eq!(ffi::held_apply(&mut keys, 0, 99, 1, 1).number, 20);
        assert_eq!(ffi::held_count(&keys, 99).number, 20);
        assert_eq!(ffi::held_first(&keys).number, 20);
        assert!(keys.iter().all(|byte| *byte == 0x5A));
    }
    let mut keys = [0x5A; HELD_LEN];
    for nibble in (0..=255_u8).filter(|nibble| nibble % 16 != 0 || !(0x80..=0xE0).contains(nibble)) {
        assert_eq!(ffi::held_apply(&mut keys, nibble, 99, 1, 1).number, ffi::NO_RECORD);
    }
    for channel in 16..=255_u8 {
        for nibble in (0x80..=0xE0_u8).step_by(16) {
            for (key, velocity) in [(0, 0), (0, 1), (1, 0), (1, 1)] {
                let answer = ffi::held_apply(&mut keys, nibble, channel, key, velocity);
                assert_eq!((answer.number, answer.details[0]), (17, channel.into()));
            }
        }
        assert_eq!(ffi::held_count(&keys, channel).number, 17);
    }
    assert_eq!(keys, [0x5A; HELD_LEN]);
}
