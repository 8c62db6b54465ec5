//! The writer that leaves out status bytes, through its entry points: chosen chains, random chains that are read back, chains beside every shorter
//! stream, and single calls beside a model.

use engine::bench::Engine;
use engine::ffi::{self, Answer, NO_RECORD, RUNNING_LEN};
use engine::running::write;
use words::{hex, parse, Bench, Message, Request};

#[path = "running/chains.rs"]
mod chains;
#[path = "running/model.rs"]
mod model;
#[path = "running/shortest.rs"]
mod shortest;

/// The frame limit.
fn limit() -> usize {
    ffi::capacity() as usize
}

/// Numbers that look random and are the same in every run.
struct Numbers(u64);

impl Numbers {
    /// A number below n.
    fn below(&mut self, n: usize) -> usize {
        self.0 = self.0.wrapping_mul(6_364_136_223_846_793_005).wrapping_add(1_442_695_040_888_963_407);
        (self.0 >> 33) as usize % n
    }

    fn byte(&mut self) -> u8 {
        self.below(256) as u8
    }

    fn bytes(&mut self, length: usize) -> Vec<u8> {
        (0..length).map(|_| self.byte()).collect()
    }

    fn one<T: Copy>(&mut self, of: &[T]) -> T {
        of[self.below(of.len())]
    }

    /// F0, so many bytes below 80, F7.
    fn frame(&mut self, data: usize) -> Vec<u8> {
        let inside = (0..data).map(|_| self.byte() % 128).collect::<Vec<_>>();
        [&[0xF0], &inside[..], &[0xF7]].concat()
    }
}

/// The bytes that are written of a chain from the state none, and the state behind it.
fn written(chain: &[Message]) -> (Vec<u8>, [u8; RUNNING_LEN]) {
    let mut state = [0xAA; RUNNING_LEN];
    assert_eq!(ffi::running_fresh(&mut state).number, 0);
    let (mut bytes, mut out) = (Vec::new(), vec![0; limit()]);
    for message in chain {
        let answer = write(&mut state, message, &mut out);
        assert_eq!(answer.number, 0, "{message}");
        bytes.extend_from_slice(&out[..answer.value as usize]);
    }
    (bytes, state)
}

/// What the decoder reports of bytes from a fresh state, handed in in pieces of these sizes.
fn read(bytes: &[u8], sizes: &[usize]) -> Vec<String> {
    let mut said = Vec::new();
    Engine::new().decode(Some(sizes), bytes, &mut |_, report| said.push(report.text()));
    said
}

/// A message in the bench's words.
fn message(text: &str) -> Message {
    match parse(&format!("rsw - - {text}")) {
        Ok(Request::RunningWrite { message, .. }) => message,
        other => panic!("'{text}' is no message: {other:?}"),
    }
}

/// Chains, the bytes that are written of them, and the state behind.
const CHAINS: [(&[&str], &str, [u8; RUNNING_LEN]); 17] = [
    (&[], "-", [0, 0]),
    // a note that is ended by a velocity of 0
    (&["ch 144 0 60 64", "ch 144 0 60 0"], "903c403c00", [1, 0x90]),
    (&["ch 192 0 5 0", "ch 192 0 6 0"], "c00506", [1, 0xC0]),
    // a system common message clears the running status
    (&["ch 192 0 5 0", "common 246 0", "ch 192 0 6 0"], "c005f6c006", [1, 0xC0]),
    (&["ch 192 0 5 0", "common 241 5"], "c005f105", [0, 0]),
    (&["ch 192 0 5 0", "common 243 5", "ch 192 0 6 0"], "c005f305c006", [1, 0xC0]),
    // a frame clears the running status
    (&["ch 192 0 5 0", "frame f0f7", "ch 192 0 6 0"], "c005f0f7c006", [1, 0xC0]),
    (&["ch 192 0 5 0", "frame f001f7"], "c005f001f7", [0, 0]),
    // a real-time message leaves the running status
    (&["ch 192 0 5 0", "rt 248", "ch 192 0 6 0"], "c005f806", [1, 0xC0]),
    (&["rt 254", "rt 255"], "feff", [0, 0]),
    // another channel has another status byte, and so has another kind
    (&["ch 192 0 5 0", "ch 192 1 6 0"], "c005c106", [1, 0xC1]),
    (&["ch 144 0 60 64", "ch 128 0 60 64"], "903c40803c40", [1, 0x80]),
    // system common messages and frames have no running status
    (&["common 241 5", "common 241 6"], "f105f106", [0, 0]),
    (&["common 242 257", "common 242 257"], "f20102f20102", [0, 0]),
    (&["frame f001f7", "frame f002f7"], "f001f7f002f7", [0, 0]),
    // bends, low seven bits first
    (&["ch 224 15 8192 0", "ch 224 15 16383 0"], "ef00407f7f", [1, 0xEF]),
    // the low seven bits of data are kept
    (&["ch 192 0 133 0", "ch 192 0 134 0"], "c00506", [1, 0xC0]),
];

#[test]
fn chosen_chains() {
    for (chain, bytes, state) in CHAINS {
        let chain: Vec<Message> = chain.iter().map(|text| message(text)).collect();
        let (said, behind) = written(&chain);
        assert_eq!((hex(&said).as_str(), behind), (bytes, state), "{chain:?}");
    }
}

/// Refusals in their order, and what is needed where a status byte is left out.
const REFUSALS: [(&str, &str); 16] = [
    ("rsw 240 000000 ch 144 16 0 0", "no 20 | 000000"),
    ("rsw 240 000000 ch 145 0 0 0", "no 20 | 000000"),
    ("rsw 127 00 common 244 0", "no 20 | 00"),
    ("rsw 127 00 rt 249", "no 20 | 00"),
    ("rsw 255 - frame -", "no 20 | -"),
    ("rsw 144 - ch 145 16 0 0", "? no record names this kind"),
    ("rsw 144 - common 244 65535", "? no record names this kind"),
    ("rsw 144 - rt 253", "? no record names this kind"),
    ("rsw 144 - ch 144 16 0 0", "no 17 16 | -"),
    ("rsw 144 - common 241 128", "no 21 128 | -"),
    ("rsw 144 - frame f0", "no 1 | -"),
    // a frame longer than the limit with a high byte in it
    ("rsw 144 - frame f0.80.00*2352.f7", "no 2 128 | -"),
    ("rsw 144 - frame f0.00*2353.f7", "no 19 2354 | -"),
    ("rsw 144 - frame f0.00*2352.f7", "no 14 2354 0 | -"),
    ("rsw 144 55 ch 144 0 60 0", "no 14 2 1 | 55"),
    ("rsw 145 5555 ch 144 0 60 0", "no 14 3 2 | 5555"),
];

#[test]
fn chosen_refusals() {
    for (request, answer) in REFUSALS {
        assert_eq!(words::line(&mut Engine::new(), request), answer, "{request}");
    }
}

/// Calls that are refused: the state, the message, the bytes of room, and the number with its first two details.
const KEPT: [(&[u8], &str, usize, [u64; 3]); 22] = [
    (&[1, 0x90], "ch 192 16 5 0", 4, [17, 16, 0]),
    (&[1, 0x90], "common 241 128", 4, [21, 128, 0]),
    (&[1, 0x90], "common 242 16384", 4, [21, 16_384, 0]),
    (&[1, 0x90], "common 243 128", 4, [21, 128, 0]),
    (&[1, 0x90], "frame f0", 4, [1, 0, 0]),
    (&[1, 0x90], "frame f0f8f7", 4, [2, 0xF8, 0]),
    (&[1, 0x90], "frame f0.00*2353.f7", 2_400, [19, 2_354, 0]),
    // one byte of room too few; the status byte of the first is left out
    (&[1, 0x90], "ch 144 0 60 64", 1, [14, 2, 1]),
    (&[1, 0x90], "ch 192 0 5 0", 1, [14, 2, 1]),
    (&[0, 0], "ch 144 0 60 64", 2, [14, 3, 2]),
    (&[1, 0x90], "common 241 5", 1, [14, 2, 1]),
    (&[1, 0x90], "common 242 5", 2, [14, 3, 2]),
    (&[1, 0x90], "common 246 0", 0, [14, 1, 0]),
    (&[1, 0x90], "frame f001f7", 2, [14, 3, 2]),
    (&[1, 0x90], "rt 248", 0, [14, 1, 0]),
    // bytes that are no state
    (&[1, 0xF0], "ch 144 0 60 64", 4, [20, 0, 0]),
    (&[0, 0x90], "common 246 0", 4, [20, 0, 0]),
    (&[2, 0x90], "rt 248", 4, [20, 0, 0]),
    (&[1, 0x90, 0], "frame f001f7", 4, [20, 0, 0]),
    // kinds that no record names
    (&[1, 0x90], "ch 145 0 60 64", 4, [NO_RECORD, 0, 0]),
    (&[1, 0x90], "common 244 0", 4, [NO_RECORD, 0, 0]),
    (&[1, 0x90], "rt 249", 4, [NO_RECORD, 0, 0]),
];

/// A call that is refused leaves the state and every byte of the room.
#[test]
fn a_refusal_keeps_the_state() {
    for (state, text, room, [number, first, second]) in KEPT {
        let (mut behind, mut out) = (state.to_vec(), vec![0x55; room]);
        let answer = write(&mut behind, &message(text), &mut out);
        assert_eq!(answer, Answer { number, value: 0, details: [first, second, 0, 0] }, "{text}");
        assert_eq!((&behind[..], out), (state, vec![0x55; room]), "{text}");
    }
}
