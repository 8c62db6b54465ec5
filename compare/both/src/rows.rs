//! Rows picked by hand, each with the place that it comes from: MIDI 1.0 (Detailed Specification), by its headings, and the documentation of
//! the Rust, by its files. Both benches must answer as the row says.

use words::examples::{examples, of_original};
use words::parse;

use crate::Tally;

/// Where a row comes from, the request, and the answer.
pub type Row = (&'static str, &'static str, &'static str);

/// MIDI 1.0's worked examples, and its rules on the shortest streams that show them.
pub const MIDI: [Row; 33] = [
    ("Running Status", "feed 903c40.4040.4340", "ok 2:c90,60,64 4:c90,64,64 6:c90,67,64 open=0"),
    ("Running Status: note on with velocity 0 ends a note", "feed 903c403c00", "ok 2:c90,60,64 4:c90,60,0 open=0"),
    ("Running Status: real-time messages leave it", "feed 903c40f84040", "ok 2:c90,60,64 3:rf8 5:c90,64,64 open=0"),
    ("Running Status: system common messages clear it", "feed 903c40f3013c40", "ok 2:c90,60,64 4:mf3,1 open=0"),
    ("Running Status: a system exclusive message clears it", "feed 903c40f07df73c40", "ok 2:c90,60,64 5:xf07df7 open=0"),
    ("Data bytes without a status are ignored", "feed 3c40903c40", "ok 4:c90,60,64 open=0"),
    ("Channel Voice: key pressure", "feed a53c20", "ok 2:ca5,60,32 open=0"),
    ("Channel Voice: program change", "feed c305", "ok 1:cc3,5 open=0"),
    ("Channel Voice: channel pressure", "feed d340", "ok 1:cd3,64 open=0"),
    ("Pitch Bend Change: centre", "feed e00040", "ok 2:ce0,8192 open=0"),
    ("Pitch Bend Change: lowest and highest", "feed e000007f7f", "ok 2:ce0,0 4:ce0,16383 open=0"),
    ("Control Change: pitch bend sensitivity by a registered parameter", "feed b065006400060c", "ok 2:cb0,101,0 4:cb0,100,0 6:cb0,6,12 open=0"),
    ("Channel Mode: local control off, all notes off", "feed b07a007b00", "ok 2:cb0,122,0 4:cb0,123,0 open=0"),
    ("Status bytes: two data bytes", "datalen 176", "ok 2"),
    ("Status bytes: one data byte", "datalen 207", "ok 1"),
    ("Status bytes: no channel status", "datalen 240", "ok none"),
    (
        "MIDI Time Code: quarter frames of 01:37:52:16, 30 frames a second",
        "feed f100f111f124f133f145f152f161f176",
        "ok 1:mf1,0 3:mf1,17 5:mf1,36 7:mf1,51 9:mf1,69 11:mf1,82 13:mf1,97 15:mf1,118 open=0",
    ),
    ("Song Position Pointer: low byte first", "feed f20800f27f7f", "ok 2:mf2,8 5:mf2,16383 open=0"),
    ("Song Select", "feed f305", "ok 1:mf3,5 open=0"),
    ("Tune Request", "feed f6", "ok 0:mf6 open=0"),
    ("System Common: undefined status bytes clear running status", "feed 903c40f43c40.903c40f53c40", "ok 2:c90,60,64 8:c90,60,64 open=0"),
    ("System Real Time: clock, start, continue, stop, sensing, reset", "feed f8fafbfcfeff", "ok 0:rf8 1:rfa 2:rfb 3:rfc 4:rfe 5:rff open=0"),
    ("System Real Time: undefined bytes are ignored", "feed 903cf9fd40", "ok 4:c90,60,64 open=0"),
    ("System Real Time: inside a message", "feed 903cf840", "ok 2:rf8 3:c90,60,64 open=0"),
    ("System Real Time: inside a system exclusive message", "feed f07d01f802f7", "ok 3:rf8 5:xf07d0102f7 open=0"),
    ("System Exclusive: ended by any status byte but real-time", "feed f07d01903c40", "ok 3:e18 5:c90,60,64 open=0"),
    ("System Exclusive: an end without a beginning", "feed f7903c40", "ok 3:c90,60,64 open=0"),
    ("Universal System Exclusive: general MIDI on", "feed f07e7f0901f7", "ok 5:xf07e7f0901f7 open=0"),
    ("Universal System Exclusive: general MIDI on is no identity request", "ireq f07e7f0901f7", "no 15"),
    ("Universal System Exclusive: master volume is another maker's frame", "frame f07f7f04010040f7", "no 4 127 127 4 1"),
    ("Device Inquiry: identity request", "ireq f07e7f0601f7", "ok 127"),
    ("Device Inquiry: identity reply", "irep f07e0006020020322000010011000102f7", "ok dev=0 fw=1.1 voice=1,2"),
    ("Device Inquiry: a reply is no request", "ireq f07e0006020020322000010011000102f7", "no 15"),
];

/// The Rust's documentation.
pub const RUST: [Row; 37] = [
    ("wire/mod.rs, opening example", "feed 903c404040", "ok 2:c90,60,64 4:c90,64,64 open=0"),
    ("wire/mod.rs, Channel", "channel 15", "ok 15"),
    ("wire/mod.rs, Channel::new", "channel 16", "no 17 16"),
    ("wire/mod.rs, ChannelMessage: velocity 0 stays a note on", "feed 903c00", "ok 2:c90,60,0 open=0"),
    ("wire/mod.rs, ChannelMessage::encode_into: masked, not rejected", "chan 144 0 188 255 000000", "ok 3 | 903c7f"),
    ("wire/mod.rs, ChannelMessage::encode_into: too small", "chan 144 0 60 64 0000", "no 14 3 2 | 0000"),
    ("wire/mod.rs, BEND_CENTRE", "chan 224 0 8192 0 000000", "ok 3 | e00040"),
    ("wire/mod.rs, Realtime::from_status", "rt 249", "ok none"),
    ("wire/mod.rs, Realtime::from_status", "rt 253", "ok none"),
    ("wire/decoder.rs, Decoder example", "feed f000203220.0003f7", "ok 7:xf0002032200003f7 open=0"),
    ("wire/decoder.rs, Decoder: chunking is irrelevant", "chunks 1 f0002032200003f7", "ok xf0002032200003f7"),
    ("wire/decoder.rs, Decoder: too long is reported once", "feed f0.01*2400.f7", "ok 2354:e19,2354 open=0"),
    ("ids.rs, DeviceId", "device 127", "ok 127"),
    ("ids.rs, DeviceId::from_byte", "device 16", "no 5 16"),
    ("ids.rs, ProtocolVersion: version 6", "rawlen 6", "ok 242"),
    ("ids.rs, ProtocolVersion: version 7", "rawlen 7", "ok 245"),
    ("ids.rs, ProtocolVersion::new", "version 8", "no 8 8"),
    ("ids.rs, Bank::new", "bank 8", "no 9 8"),
    ("ids.rs, ProgramNumber::new", "program 128", "no 10 128"),
    ("ids.rs, PatternNumber::new", "pattern 32", "no 11 32"),
    ("sysex/command.rs, Command::from_byte: the gap at 0F", "command 15", "no 6 15"),
    ("sysex/command.rs, Command::from_byte: the gap at 13 to 1A", "command 19", "no 6 19"),
    ("sysex/packed.rs, how long is a packed run: padded", "plen 242", "ok 280"),
    ("sysex/packed.rs, how long is a packed run: globals", "plen 45", "ok 56"),
    ("sysex/packed.rs, how long is a packed run: bank names", "plen 2048", "ok 2344"),
    ("sysex/packed.rs, how long is a packed run: short", "ulen 277", "ok 242"),
    ("sysex/packed.rs, how long is a packed run: the manual's 278", "ulen 278", "ok 243"),
    ("sysex/packed.rs, unpacked_len", "ulen 1", "no 13 1"),
    ("sysex/packed.rs, the diagram", "pack 80000000000000.00*0 55*8", "ok 8 | 0100000000000000"),
    ("sysex/packed.rs, unpack_into: bit 7 is ignored", "unpack 81ff 55", "ok 1 | ff"),
    ("sysex/message.rs, Interface::from_byte", "interface 3", "no 12 3"),
    ("sysex/message.rs, Frame example: written", "fwrite u0 1 0 0 0 0 0 0 0 0 0 0 - 00*16", "ok 10 | f00020322000010000f7000000000000"),
    (
        "sysex/message.rs, Frame example: read",
        "frame f00020322000010000f7",
        "ok dev=0 cmd=1 free=0 ver=0 bank=0 prog=0 last=0 pat=0 has=0 ifc=0 rx=0 tx=0 run=-",
    ),
    ("sysex/message.rs, Frame::encode_into: a reserved byte of 128", "fwrite u0 0 128 0 0 0 0 0 0 0 0 0 - 55*9", "no 2 128 | 555555555555555555"),
    ("sysex/inquiry.rs, request_into example", "wreq all 00*6", "ok 6 | f07e7f0601f7"),
    ("sysex/inquiry.rs, parse_request example", "ireq f07e7f0601f7", "ok 127"),
    ("sysex/inquiry.rs, Version::from_packed: firmware 1.0 is 01", "irep f07e0006020020322000010001000102f7", "ok dev=0 fw=1.0 voice=1,2"),
];

/// Asks every row, and the examples of the bench's page.
pub fn ask(tally: &mut Tally) {
    let page = examples().into_iter().map(|(request, answer)| ("the bench's page", request, answer));
    for (source, request, answer) in MIDI.iter().chain(&RUST).copied().chain(page) {
        match parse(request) {
            Ok(asked) => tally.row(&asked, &of_original(request, answer), answer),
            Err(why) => assert!(answer == format!("? {why}"), "{source}: '{request}' is no request: {why}"),
        }
    }
}
