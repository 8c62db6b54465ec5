//! The comparison sees differences, tells the shortest, and passes over nothing that it must not.

use both::{Tally, Writer};
use engine::ffi;
use engine::running::write;
use origin::bench::Origin;
use words::{parse, Answer, Bench, Message, Report, Request};

/// The original, but for what one function says first.
struct Wrong(fn(&Request, &mut [u8]) -> Option<Answer>);

impl Bench for Wrong {
    fn answer(&mut self, request: &Request, out: &mut [u8]) -> Answer {
        (self.0)(request, out).unwrap_or_else(|| Origin::<2354>.answer(request, out))
    }

    fn decode(&mut self, sizes: Option<&[usize]>, bytes: &[u8], report: &mut dyn FnMut(usize, Report<'_>)) -> bool {
        Origin::<2354>.decode(sizes, bytes, report)
    }
}

fn differences(wrong: fn(&Request, &mut [u8]) -> Option<Answer>, requests: &[Request]) -> Vec<String> {
    let mut tally = Tally::new(Box::new(Wrong(wrong)));
    requests.iter().for_each(|request| tally.ask(request));
    tally.differences().values().map(|found| found.request.clone()).collect()
}

#[test]
fn the_same_answers_are_no_difference() {
    assert!(differences(|_, _| None, &[Request::Bank(3), Request::Bank(9), Request::PackedLen(u64::MAX)]).is_empty());
}

#[test]
fn a_wrong_number_a_wrong_byte_and_a_skip_without_reason_are_seen() {
    let pack = Request::Pack { bytes: vec![1, 2, 3], out: vec![0; 9] };
    assert_eq!(differences(|_, _| Some(Answer::number(4)), &[Request::Bank(3)]), ["bank 3"]);
    assert_eq!(differences(|_, _| Some(Answer::Skip), &[Request::Bank(9)]), ["bank 9"]);
    assert_eq!(differences(|_, _| Some(Answer::Skip), &[Request::PackedLen(7)]), ["plen 7"]);
    let touched = |request: &Request, out: &mut [u8]| {
        let answer = Origin::<2354>.answer(request, out);
        out[8] = 1;
        Some(answer)
    };
    assert_eq!(differences(touched, &[pack]), ["pack - 00*9"]);
}

#[test]
fn the_shortest_request_is_told() {
    let blind_to_05 = |request: &Request, _: &mut [u8]| match request {
        Request::Frame(bytes) if bytes.contains(&5) => Some(Answer::Skip),
        _ => None,
    };
    let long = Request::Frame(vec![0xF0, 0x00, 0x20, 0x32, 0x20, 0x00, 0x05, 0xF7]);
    assert_eq!(differences(blind_to_05, &[long]), ["frame 05"]);
}

#[test]
fn another_limit_is_seen() {
    let mut tally = Tally::new(Box::new(Origin::<2353>));
    tally.stream(None, &[0x90, 0x3C, 0x40]);
    assert!(tally.differences().is_empty());
    let mut frame = vec![0x01; 2400];
    frame[0] = 0xF0;
    tally.stream(None, &frame);
    assert_eq!(tally.differences()["feed"].request, "feed f0.01*2353");
}

/// A chain that every wrong writer of these tests writes wrong somewhere.
const CHAIN: [&str; 15] = [
    "rt 248",
    "ch 144 0 60 64",
    "rt 248",
    "ch 144 0 60 0",
    "ch 144 1 60 64",
    "common 243 1",
    "common 243 2",
    "ch 192 0 5 0",
    "common 246 0",
    "ch 192 0 6 0",
    "frame f001f7",
    "ch 192 0 7 0",
    "frame f001f7",
    "rt 254",
    "ch 224 3 8192 0",
];

fn message(text: &str) -> Message {
    match parse(&format!("rsw - - {text}")) {
        Ok(Request::RunningWrite { message, .. }) => message,
        other => panic!("'{text}' is no message: {other:?}"),
    }
}

/// The shortest chain that was found to differ.
fn shortest_chain(writer: Writer, original: Box<dyn Bench>) -> Option<String> {
    let mut tally = Tally::new(original).with_writer(writer);
    tally.chain(&CHAIN.map(message), &[3, 1]);
    assert_eq!(tally.alike().contains_key("chains"), tally.differences().is_empty());
    tally.differences().get("chains").map(|found| found.request.clone())
}

fn never_leaves_out(_: &mut [u8], message: &Message, out: &mut [u8]) -> ffi::Answer {
    write(&mut [0; ffi::RUNNING_LEN], message, out)
}

fn kept_over_a_common_message(state: &mut [u8], message: &Message, out: &mut [u8]) -> ffi::Answer {
    let mut own = [state[0], state[1]];
    write(if matches!(message, Message::Common { .. }) { &mut own } else { state }, message, out)
}

fn kept_over_a_frame(state: &mut [u8], message: &Message, out: &mut [u8]) -> ffi::Answer {
    let mut own = [state[0], state[1]];
    write(if matches!(message, Message::Frame(_)) { &mut own } else { state }, message, out)
}

fn cleared_by_a_real_time_message(state: &mut [u8], message: &Message, out: &mut [u8]) -> ffi::Answer {
    let answer = write(state, message, out);
    if matches!(message, Message::Realtime(_)) {
        state.fill(0);
    }
    answer
}

fn left_out_by_the_nibble(state: &mut [u8], message: &Message, out: &mut [u8]) -> ffi::Answer {
    match message {
        Message::Channel { nibble, channel, .. } if state[1] & 0xF0 == *nibble => state[1] = nibble | channel,
        _ => {}
    }
    write(state, message, out)
}

/// It marks a song select with the state 00 F3, which the engine's writer does not take.
fn left_out_of_song_selects(state: &mut [u8], message: &Message, out: &mut [u8]) -> ffi::Answer {
    let again = state[1] == 0xF3;
    if again {
        state.fill(0);
    }
    let mut answer = write(state, message, out);
    if matches!(message, Message::Common { status: 0xF3, .. }) {
        state[1] = 0xF3;
        if again {
            out[0] = out[1];
            answer.value = 1;
        }
    }
    answer
}

fn refuses_a_bend(state: &mut [u8], message: &Message, out: &mut [u8]) -> ffi::Answer {
    let bend = matches!(message, Message::Channel { nibble: 0xE0, .. });
    write(state, message, if bend { &mut out[..2] } else { out })
}

#[test]
fn a_wrong_writer_of_chains_is_seen() {
    let original = || Box::new(Origin::<2354>);
    assert_eq!(shortest_chain(write, original()), None);
    let wrong: [(Writer, &str); 7] = [
        (never_leaves_out, "ch 144 0 60 64, ch 144 0 60 0"),
        (kept_over_a_common_message, "ch 192 0 5 0, common 246 0, ch 192 0 6 0"),
        (kept_over_a_frame, "ch 192 0 6 0, frame f001f7, ch 192 0 7 0"),
        (cleared_by_a_real_time_message, "ch 144 0 60 64, rt 248, ch 144 0 60 0"),
        (left_out_by_the_nibble, "ch 144 0 60 0, ch 144 1 60 64"),
        (left_out_of_song_selects, "common 243 1, common 243 2"),
        (refuses_a_bend, "ch 224 3 8192 0"),
    ];
    for (writer, shortest) in wrong {
        assert_eq!(shortest_chain(writer, original()).as_deref(), Some(shortest));
    }
}

/// The original, but for a decoder that does not hear one byte, or a writer that makes another status byte.
struct Deaf(Option<u8>);

impl Bench for Deaf {
    fn answer(&mut self, request: &Request, out: &mut [u8]) -> Answer {
        let answer = Origin::<2354>.answer(request, out);
        if self.0.is_none() {
            out[0] ^= 1;
        }
        answer
    }

    fn decode(&mut self, sizes: Option<&[usize]>, bytes: &[u8], report: &mut dyn FnMut(usize, Report<'_>)) -> bool {
        let heard: Vec<u8> = bytes.iter().copied().filter(|byte| self.0 != Some(*byte)).collect();
        Origin::<2354>.decode(sizes, &heard, report)
    }
}

#[test]
fn an_original_that_reads_or_writes_a_chain_otherwise_is_seen() {
    for (deaf_to, shortest) in [(0xF8, "rt 248"), (0xF0, "frame f001f7"), (0xE3, "ch 224 3 8192 0")] {
        assert_eq!(shortest_chain(write, Box::new(Deaf(Some(deaf_to)))).as_deref(), Some(shortest));
    }
    assert_eq!(shortest_chain(write, Box::new(Deaf(None))).as_deref(), Some("ch 224 3 8192 0"));
}
