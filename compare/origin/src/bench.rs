//! Each of the bench's words over the original. What the original has no call for is said to be so, and nothing is made up.

use words::{hex, Answer, Bench, Device, Head, Report, Request};

use crate::error::{Error, Result};
use crate::ids::{Bank, DeviceId, PatternNumber, ProgramNumber, ProtocolVersion};
use crate::sysex::inquiry::{self, Version};
use crate::sysex::{packed, Command, Frame, Interface, Message};
use crate::wire::{Channel, ChannelMessage, Decoder, Event, Realtime, SystemCommon};

/// The original with a frame limit of N.
pub struct Origin<const N: usize>;

impl<const N: usize> Bench for Origin<N> {
    fn answer(&mut self, request: &Request, out: &mut [u8]) -> Answer {
        match request {
            Request::Bank(n) => byte(Bank::new(*n).map(Bank::index)),
            Request::Program(n) => byte(ProgramNumber::new(*n).map(ProgramNumber::get)),
            Request::Pattern(n) => byte(PatternNumber::new(*n).map(PatternNumber::get)),
            Request::Version(n) => byte(ProtocolVersion::new(*n).map(ProtocolVersion::get)),
            Request::Device(n) => byte(DeviceId::from_byte(*n).map(DeviceId::to_byte)),
            Request::Channel(n) => byte(Channel::new(*n).map(Channel::index)),
            Request::Interface(n) => byte(Interface::from_byte(*n).map(Interface::to_byte)),
            Request::Command(n) => byte(Command::from_byte(*n).map(Command::to_byte)),
            Request::RawLen(version) => count(ProtocolVersion::new(*version).map(ProtocolVersion::program_data_len)),
            Request::DataLen(status) => or_none(ChannelMessage::data_len_for(*status).map(|n| n as u64)),
            Request::Rt(status) => or_none(Realtime::from_status(*status).map(|m| u64::from(m.to_status()))),
            Request::PackedLen(n) => packed_len(*n),
            Request::UnpackedLen(n) => count(packed::unpacked_len(*n as usize)),
            Request::Pack { bytes, .. } => count(packed::pack_into(bytes, out)),
            Request::Unpack { bytes, .. } => count(packed::unpack_into(bytes, out)),
            Request::Chan { nibble, channel, a, b, .. } => match Channel::new(*channel) {
                Ok(channel) => count(message(*nibble, *a, *b).encode_into(channel, out)),
                Err(_) => Answer::Skip,
            },
            Request::Feed(bytes) => words::decoded(self, None, bytes),
            Request::Chunks { sizes, bytes } => words::decoded(self, Some(sizes), bytes),
            Request::Frame(bytes) => frame(bytes),
            Request::FrameWrite { head, .. } => with_frame(head, |frame| count(frame.encode_into(out))),
            Request::ReadBack(head) => with_frame(head, read_back),
            Request::InquiryRequest(bytes) => byte(inquiry::parse_request(bytes).map(DeviceId::to_byte)),
            Request::InquiryReply(bytes) => reply(bytes),
            Request::WriteRequest { device, .. } => match known(*device) {
                Some(device) => count(inquiry::request_into(device, out)),
                None => Answer::Skip,
            },
            Request::WriteReply { device, major, minor, voice, .. } => write_reply(*device, *major, *minor, *voice, out),
            Request::Common { .. }
            | Request::RtWrite { .. }
            | Request::RunningWrite { .. }
            | Request::Call { .. }
            | Request::Reset(_)
            | Request::Held(_) => Answer::What("the original has no such call".to_string()),
        }
    }

    fn decode(&mut self, sizes: Option<&[usize]>, bytes: &[u8], report: &mut dyn FnMut(usize, Report<'_>)) -> bool {
        let mut decoder: Decoder<N> = Decoder::new();
        words::pieces(sizes.unwrap_or(&[1]), bytes, |place, piece| {
            decoder.feed(piece, |event| report(place, told(event)));
        });
        decoder.in_sysex()
    }
}

fn no(error: Error) -> Answer {
    match error.told() {
        Some((number, details)) => Answer::No(number, details),
        None => Answer::What("a bank's letter is text".to_string()),
    }
}

fn byte(result: Result<u8>) -> Answer {
    result.map_or_else(no, |n| Answer::number(u64::from(n)))
}

fn count(result: Result<usize>) -> Answer {
    result.map_or_else(no, |n| Answer::number(n as u64))
}

fn or_none(number: Option<u64>) -> Answer {
    number.map_or_else(|| Answer::Ok("none".to_string()), Answer::number)
}

/// The original multiplies without a test, so it is asked only where the product fits.
fn packed_len(n: u64) -> Answer {
    match n.div_ceil(7).checked_mul(8) {
        Some(_) => Answer::number(packed::packed_len(n as usize) as u64),
        None => Answer::Skip,
    }
}

fn message(nibble: u8, a: u16, b: u8) -> ChannelMessage {
    let first = (a % 256) as u8;
    match nibble {
        0x80 => ChannelMessage::NoteOff { key: first, velocity: b },
        0x90 => ChannelMessage::NoteOn { key: first, velocity: b },
        0xA0 => ChannelMessage::PolyKeyPressure { key: first, pressure: b },
        0xB0 => ChannelMessage::ControlChange { controller: first, value: b },
        0xC0 => ChannelMessage::ProgramChange { program: first },
        0xD0 => ChannelMessage::ChannelPressure { pressure: first },
        _ => ChannelMessage::PitchBend { value: a },
    }
}

/// The data of a channel message: a bend is one number.
fn data(message: ChannelMessage) -> (u16, Option<u8>) {
    match message {
        ChannelMessage::NoteOff { key, velocity } | ChannelMessage::NoteOn { key, velocity } => (key.into(), Some(velocity)),
        ChannelMessage::PolyKeyPressure { key, pressure } => (key.into(), Some(pressure)),
        ChannelMessage::ControlChange { controller, value } => (controller.into(), Some(value)),
        ChannelMessage::ProgramChange { program } => (program.into(), None),
        ChannelMessage::ChannelPressure { pressure } => (pressure.into(), None),
        ChannelMessage::PitchBend { value } => (value, None),
    }
}

/// An event as the bench has it.
fn told(event: Result<Event<'_>>) -> Report<'_> {
    match event {
        Ok(Event::Channel { channel, message }) => {
            let (first, second) = data(message);
            Report::Channel { status: message.status_nibble() | channel.index(), first, second }
        }
        Ok(Event::SysEx(frame)) => Report::Frame(frame),
        Ok(Event::Common(SystemCommon::TimeCodeQuarterFrame(value))) => Report::Common { status: 0xF1, value: Some(value.into()) },
        Ok(Event::Common(SystemCommon::SongPosition(value))) => Report::Common { status: 0xF2, value: Some(value) },
        Ok(Event::Common(SystemCommon::SongSelect(value))) => Report::Common { status: 0xF3, value: Some(value.into()) },
        Ok(Event::Common(SystemCommon::TuneRequest)) => Report::Common { status: 0xF6, value: None },
        Ok(Event::Realtime(message)) => Report::Realtime(message.to_status()),
        Err(Error::SysExInterrupted) => Report::Interrupted,
        Err(Error::SysExTooLong(limit)) => Report::TooLong(limit as u64),
        Err(error) => Report::Never(error.told().map_or(0, |(number, _)| number.into())),
    }
}

/// The plain fields of a message, in the order of the bench: free ver bank prog last pat has ifc rx tx.
#[derive(Default)]
struct Fields {
    free: u8,
    version: u8,
    bank: u8,
    program: u8,
    last: u8,
    pattern: u8,
    has: bool,
    interface: u8,
    rx: u8,
    tx: u8,
}

fn fields(message: &Message<'_>) -> Fields {
    let mut f = Fields { version: message.version().map_or(0, ProtocolVersion::get), ..Fields::default() };
    match *message {
        Message::ControlAppNotifyRequest { reserved } => f.free = reserved,
        Message::ProgramDumpRequest { bank, program }
        | Message::SingleProgramNameDumpRequest { bank, program }
        | Message::ProgramDumpResponse { bank, program, .. } => (f.bank, f.program) = (bank.index(), program.get()),
        Message::SingleUserPatternDumpRequest { pattern } => f.pattern = pattern.get(),
        Message::UserPatternDumpResponse { pattern: Some(pattern), .. } => (f.pattern, f.has) = (pattern.get(), true),
        Message::ProgramBankDumpRequest { bank, first, last } => (f.bank, f.program, f.last) = (bank.index(), first.get(), last.get()),
        Message::BankProgramNamesDumpRequest { bank }
        | Message::BankProgramNamesDumpResponse { bank, .. }
        | Message::SingleProgramNameDumpResponse { bank, .. } => f.bank = bank.index(),
        Message::ControlAppNotifyResponse { rx_channel, tx_channel, interface, bank, program } => {
            (f.rx, f.tx, f.interface, f.bank, f.program) = (rx_channel, tx_channel, interface.to_byte(), bank.index(), program.get());
        }
        _ => {}
    }
    f
}

fn frame(bytes: &[u8]) -> Answer {
    let frame = match Frame::parse(bytes) {
        Ok(frame) => frame,
        Err(error) => return no(error),
    };
    let f = fields(&frame.message);
    Answer::Ok(format!(
        "dev={} cmd={} free={} ver={} bank={} prog={} last={} pat={} has={} ifc={} rx={} tx={} run={}",
        frame.device.to_byte(),
        frame.message.command().to_byte(),
        f.free,
        f.version,
        f.bank,
        f.program,
        f.last,
        f.pattern,
        u8::from(f.has),
        f.interface,
        f.rx,
        f.tx,
        hex(frame.message.packed().unwrap_or_default()),
    ))
}

/// A device that the engine does not refuse. The original would write any unit.
fn known(device: Device) -> Option<DeviceId> {
    match device {
        Device::All => Some(DeviceId::Broadcast),
        Device::Unit(unit) if unit < 16 => Some(DeviceId::Unit(unit)),
        Device::Unit(_) => None,
    }
}

/// The record as the original's types hold it; none where they cannot.
fn held<'a>(head: &'a Head) -> Option<Frame<'a>> {
    let device = known(head.device)?;
    let version = || ProtocolVersion::new(head.version).ok();
    let bank = || Bank::new(head.bank).ok();
    let program = || ProgramNumber::new(head.program).ok();
    let packed = head.run.as_slice();
    let message = match Command::from_byte(head.command).ok()? {
        Command::ControlAppNotifyRequest => Message::ControlAppNotifyRequest { reserved: head.free },
        Command::ProgramDumpRequest => Message::ProgramDumpRequest { bank: bank()?, program: program()? },
        Command::ProgramDumpResponse => Message::ProgramDumpResponse { version: version()?, bank: bank()?, program: program()?, packed },
        Command::EditBufferDumpRequest => Message::EditBufferDumpRequest,
        Command::EditBufferDumpResponse => Message::EditBufferDumpResponse { version: version()?, packed },
        Command::GlobalParameterDumpRequest => Message::GlobalParameterDumpRequest,
        Command::GlobalParameterDumpResponse => Message::GlobalParameterDumpResponse { version: version()?, packed },
        Command::SingleUserPatternDumpRequest => Message::SingleUserPatternDumpRequest { pattern: PatternNumber::new(head.pattern).ok()? },
        Command::UserPatternDumpResponse => Message::UserPatternDumpResponse {
            version: version()?,
            pattern: if head.has { Some(PatternNumber::new(head.pattern).ok()?) } else { None },
            packed,
        },
        Command::ProgramBankDumpRequest => {
            Message::ProgramBankDumpRequest { bank: bank()?, first: program()?, last: ProgramNumber::new(head.last).ok()? }
        }
        Command::BankProgramNamesDumpRequest => Message::BankProgramNamesDumpRequest { bank: bank()? },
        Command::BankProgramNamesDumpResponse => Message::BankProgramNamesDumpResponse { version: version()?, bank: bank()?, packed },
        Command::SingleProgramNameDumpRequest => Message::SingleProgramNameDumpRequest { bank: bank()?, program: program()? },
        Command::SingleProgramNameDumpResponse => Message::SingleProgramNameDumpResponse { version: version()?, bank: bank()?, packed },
        Command::EditBufferPatternDumpRequest => Message::EditBufferPatternDumpRequest,
        Command::ControlAppNotifyResponse => Message::ControlAppNotifyResponse {
            rx_channel: head.rx,
            tx_channel: head.tx,
            interface: Interface::from_byte(head.interface).ok()?,
            bank: bank()?,
            program: program()?,
        },
        Command::CalibrationDataDumpRequest => Message::CalibrationDataDumpRequest,
        Command::CalibrationDataDumpResponse => Message::CalibrationDataDumpResponse { version: version()?, packed },
        Command::ChordMemoryDumpRequest => Message::ChordMemoryDumpRequest,
        Command::ChordMemoryDumpResponse => Message::ChordMemoryDumpResponse { version: version()?, packed },
        Command::PolyChordMemoryDumpRequest => Message::PolyChordMemoryDumpRequest,
        Command::PolyChordMemoryDumpResponse => Message::PolyChordMemoryDumpResponse { version: version()?, packed },
    };
    Some(Frame::new(device, message))
}

fn with_frame(head: &Head, answer: impl FnOnce(Frame<'_>) -> Answer) -> Answer {
    held(head).map_or(Answer::Skip, answer)
}

fn read_back(frame_: Frame<'_>) -> Answer {
    let mut bytes = vec![0; frame_.encoded_len()];
    match frame_.encode_into(&mut bytes) {
        Ok(written) => frame(&bytes[..written]),
        Err(error) => no(error),
    }
}

fn reply(bytes: &[u8]) -> Answer {
    inquiry::parse_reply(bytes).map_or_else(no, |identity| {
        Answer::Ok(format!(
            "dev={} fw={}.{} voice={},{}",
            identity.device.to_byte(),
            identity.firmware.major,
            identity.firmware.minor,
            identity.voice.major,
            identity.voice.minor
        ))
    })
}

fn write_reply(device: Device, major: u8, minor: u8, voice: [u8; 2], out: &mut [u8]) -> Answer {
    let Some(device) = known(device) else {
        return Answer::Skip;
    };
    // an identity can be changed and not made outside the original: one is read and its fields are set
    let mut identity = match inquiry::parse_reply(&[0xF0, 0x7E, 0, 6, 2, 0, 0x20, 0x32, 0x20, 0, 1, 0, 0, 0, 0, 0, 0xF7]) {
        Ok(identity) => identity,
        Err(error) => return no(error),
    };
    identity.device = device;
    identity.firmware = Version { major, minor };
    identity.voice = Version { major: voice[0], minor: voice[1] };
    count(inquiry::reply_into(&identity, out))
}
