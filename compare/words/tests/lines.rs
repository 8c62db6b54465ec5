//! What is a request, and what is not.

use words::examples::{examples, MALFORMED, PAGE};
use words::{hex, line, parse, parse_bytes, short_hex, Answer, Bench, Report, Request};

#[test]
fn bytes() {
    assert_eq!(parse_bytes("-"), Ok(vec![]));
    assert_eq!(parse_bytes("f0.01*3.f7"), Ok(vec![0xF0, 1, 1, 1, 0xF7]));
    assert_eq!(parse_bytes("00*0"), Ok(vec![]));
    assert_eq!(hex(&[0, 255]), "00ff");
    assert_eq!(hex(&[]), "-");
    assert_eq!(short_hex(&[1, 2, 2, 0, 0, 0, 0, 0, 3]), "010202.00*5.03");
    assert_eq!(short_hex(&[]), "-");
    for word in ["f", "F0", "0g", "", "00*", "00*x", "00*+1", "00..00", "é", "00*18446744073709551616", "00*99999999"] {
        assert!(parse_bytes(word).is_err(), "{word}");
    }
}

#[test]
fn no_requests() {
    for text in [
        "bank -1",
        "bank +1",
        "bank\t1",
        "plen 18446744073709551616",
        "chan 240 0 1 2 00",
        "chan 144 0 256 2 00",
        "chan 224 0 65536 2 00",
        "common 244 0 00",
        "rtw 249 00",
        "rsw 256 00 rt 248",
        "rsw - 00",
        "rsw - 00 rt",
        "rsw - 00 rt 256",
        "rsw - 00 rt 248 00",
        "rsw - 00 ch 144 0 256 2",
        "rsw - 00 ch 144 0 1",
        "rsw - 00 common 242 65536",
        "rsw - 00 tune",
        "call 2,0,-,0,0,0 - -",
        "call 0,0,- - -",
        "chunks 0,0 90",
        "wreq 7 00",
        "wreq u256 00",
        "wreq u 00",
        "held 144,16",
        "held 145,0,0,0",
    ] {
        assert!(parse(text).is_err(), "{text}");
    }
    for text in MALFORMED {
        assert!(parse(text).is_err(), "{text}");
    }
}

/// A request or two of each word.
const REQUESTS: [&str; 36] = [
    "bank 9",
    "program 1",
    "pattern 2",
    "version 3",
    "device 4",
    "channel 5",
    "interface 6",
    "command 7",
    "rawlen 6",
    "datalen 144",
    "rt 248",
    "plen 3",
    "ulen 18446744073709551615",
    "pack 0102 55*9",
    "unpack - -",
    "chan 224 3 8192 0 000000",
    "common 242 9 -",
    "rtw 248 00",
    "rsw - 000000 ch 224 3 8192 0",
    "rsw 144 55.00*9 ch 145 16 0 200",
    "rsw 240 - common 244 65535",
    "rsw 0 00 rt 249",
    "rsw 255 - frame f0.01*9.f7",
    "feed f0.01*9.f7",
    "chunks 4,7,5 903c40",
    "call 0,0,144,1,60,9 00*2354 40f8",
    "reset 1,5,-,0,0,0",
    "frame f0f7",
    "fwrite u16 12 127 6 7 128 127 31 1 0 127 127 - 55*10",
    "readback all 2 0 7 0 0 0 0 0 0 0 0 01*280",
    "ireq f0f7",
    "irep -",
    "wreq all 00*6",
    "wrep u3 1 2 3 4 00*17",
    "held",
    "held 224,3,16383,0 144,16,1,1",
];

#[test]
fn a_request_is_shown_as_its_line() {
    for text in REQUESTS {
        let request = parse(text).expect(text);
        assert_eq!(request.to_string(), text);
        assert_eq!(request.word(), text.split(' ').next().unwrap_or_default());
    }
    assert_eq!(parse("  bank   9 "), Ok(Request::Bank(9)));
}

/// The page cannot lose its examples unseen: it lists each word, and has a request of it, and no line of its examples lacks an answer.
#[test]
fn the_page_has_an_example_of_each_word() {
    let rows = examples();
    let listed: Vec<&str> = PAGE.lines().filter_map(|line| line.strip_prefix("| ")?.split(" | ").next()).collect();
    for request in REQUESTS {
        let word = request.split(' ').next().unwrap_or_default();
        assert!(rows.iter().any(|(request, _)| request.split(' ').next() == Some(word)), "no example of {word}");
        assert!(listed.iter().any(|cell| cell.split([' ', ',']).any(|listed| listed == word)), "{word} is not in the table");
    }
    for (request, answer) in rows {
        assert!(["ok", "no", "?"].contains(&answer.split(' ').next().unwrap_or_default()), "'{request}' has no answer");
    }
}

/// A bench that writes one byte and counts it.
struct One;

impl Bench for One {
    fn answer(&mut self, _: &Request, out: &mut [u8]) -> Answer {
        match out.first_mut() {
            Some(first) => {
                *first = 7;
                Answer::number(1)
            }
            None => Answer::No(14, vec![1, 0]),
        }
    }

    fn decode(&mut self, sizes: Option<&[usize]>, bytes: &[u8], report: &mut dyn FnMut(usize, Report<'_>)) -> bool {
        words::pieces(sizes.unwrap_or(&[bytes.len()]), bytes, |place, piece| report(place, Report::Frame(piece)));
        true
    }
}

#[test]
fn a_lent_buffer_is_shown() {
    assert_eq!(line(&mut One, "pack 01 5555"), "ok 1 | 0755");
    assert_eq!(line(&mut One, "pack 01 -"), "no 14 1 0 | -");
    assert_eq!(line(&mut One, "bank 3"), "no 14 1 0");
    assert_eq!(line(&mut One, "what"), "? what is no word of the bench");
}

#[test]
fn streams() {
    assert_eq!(words::decoded(&mut One, None, &[1, 2, 3]).text(), "ok 0:x010203 open=1");
    assert_eq!(words::decoded(&mut One, Some(&[0, 2]), &[1, 2, 3]).text(), "ok x- x0102 x- x03");
    assert_eq!(words::decoded(&mut One, Some(&[1]), &[]).text(), "ok");
}
