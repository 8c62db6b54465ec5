//! Every short list of messages beside every short byte string: none that is shorter than what is written reads as the list.

use std::collections::HashMap;

use engine::bench::Engine;
use words::{Bench, Message};

use super::{message, written};

/// The longest byte string that is tried.
const TRIED: usize = 7;

/// The most messages of a list.
const MESSAGES: usize = 5;

/// Six byte values, and messages whose bytes are among them.
const ALPHABETS: [([u8; 6], &[&str]); 5] = [
    (
        [0x90, 0x91, 0x3C, 0x40, 0xF6, 0xF8],
        &["ch 144 0 60 64", "ch 144 0 64 60", "ch 144 0 60 60", "ch 144 1 60 64", "ch 144 1 64 64", "common 246 0", "rt 248"],
    ),
    ([0xC0, 0xC1, 0x05, 0xF1, 0xF6, 0xFA], &["ch 192 0 5 0", "ch 192 1 5 0", "common 241 5", "common 246 0", "rt 250"]),
    ([0xC0, 0xF0, 0xF7, 0x01, 0xF2, 0xFE], &["ch 192 0 1 0", "frame f0f7", "frame f001f7", "frame f00101f7", "common 242 129", "rt 254"]),
    ([0xE3, 0x93, 0x00, 0x40, 0xF3, 0xF4], &["ch 224 3 8192 0", "ch 224 3 64 0", "ch 144 3 0 64", "ch 144 3 64 0", "common 243 64"]),
    ([0xD0, 0x80, 0x01, 0xF0, 0xF7, 0xFF], &["ch 208 0 1 0", "ch 128 0 1 1", "frame f0f7", "frame f001f7", "rt 255"]),
];

/// For each list of reports of some byte string the least length of one.
fn least(alphabet: &[u8; 6]) -> HashMap<Vec<u8>, usize> {
    let mut least = HashMap::new();
    let mut engine = Engine::new();
    for length in 0..=TRIED {
        for number in 0..6_usize.pow(length as u32) {
            let bytes: Vec<u8> = (0..length).map(|place| alphabet[number / 6_usize.pow(place as u32) % 6]).collect();
            let mut reports = Vec::new();
            engine.decode(None, &bytes, &mut |_, report| report.put(&mut reports));
            least.entry(reports).or_insert(length);
        }
    }
    least
}

/// Every list of so many of the messages.
fn lists(messages: &[Message], length: usize) -> impl Iterator<Item = Vec<Message>> + '_ {
    let of = messages.len();
    (0..of.pow(length as u32)).map(move |number| (0..length).map(|place| messages[number / of.pow(place as u32) % of].clone()).collect())
}

#[test]
fn no_shorter_bytes_read_as_the_list() {
    for (alphabet, texts) in ALPHABETS {
        let least = least(&alphabet);
        let messages: Vec<Message> = texts.iter().map(|text| message(text)).collect();
        let (mut within, mut beyond) = (0, 0);
        for list in (0..=MESSAGES).flat_map(|length| lists(&messages, length)) {
            let (bytes, _) = written(&list);
            assert!(bytes.iter().all(|byte| alphabet.contains(byte)), "{list:?} is written with other bytes");
            let mut reports = Vec::new();
            list.iter().for_each(|message| message.report().put(&mut reports));
            if bytes.len() <= TRIED {
                assert_eq!(least.get(&reports), Some(&bytes.len()), "{list:?}");
                within += 1;
            } else {
                assert_eq!(least.get(&reports), None, "{list:?}");
                beyond += 1;
            }
        }
        assert!(within > 50 && beyond > 500, "{within} and {beyond} lists of {alphabet:02X?}");
    }
}
