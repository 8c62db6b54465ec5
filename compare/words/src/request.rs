//! A line taken apart.

use crate::bytes::parse_bytes;
use crate::message::Message;

/// Whom a frame is for. A unit may be made by hand, above 15.
#[derive(Debug, Clone, Copy, PartialEq, Eq)]
pub enum Device {
    /// Byte 7F.
    All,
    /// A unit.
    Unit(u8),
}

/// A decoder state, as `open,len,status or -,pending,data0,data1`.
#[derive(Debug, Clone, Copy, PartialEq, Eq)]
pub struct State {
    /// A frame is open.
    pub open: bool,
    /// Its length so far.
    pub len: u64,
    /// The status in force.
    pub status: Option<u8>,
    /// Data bytes pending.
    pub pending: u8,
    /// The first data byte.
    pub data0: u8,
    /// The second data byte.
    pub data1: u8,
}

/// A frame's plain fields, as the words `fwrite` and `readback` list them.
#[derive(Debug, Clone, PartialEq, Eq)]
pub struct Head {
    /// Whom it is for.
    pub device: Device,
    /// The command byte.
    pub command: u8,
    /// The free byte of command 00.
    pub free: u8,
    /// The protocol version.
    pub version: u8,
    /// The bank.
    pub bank: u8,
    /// The program, or the first of a range.
    pub program: u8,
    /// The last program of a range.
    pub last: u8,
    /// The pattern.
    pub pattern: u8,
    /// Does a pattern dump name its pattern?
    pub has: bool,
    /// The interface.
    pub interface: u8,
    /// The receive channel.
    pub rx: u8,
    /// The transmit channel.
    pub tx: u8,
    /// The packed run.
    pub run: Vec<u8>,
}

/// A request. Names are the bench's words.
#[derive(Debug, Clone, PartialEq, Eq)]
pub enum Request {
    Bank(u8),
    Program(u8),
    Pattern(u8),
    Version(u8),
    Device(u8),
    Channel(u8),
    Interface(u8),
    Command(u8),
    RawLen(u8),
    DataLen(u8),
    Rt(u8),
    PackedLen(u64),
    UnpackedLen(u64),
    Pack { bytes: Vec<u8>, out: Vec<u8> },
    Unpack { bytes: Vec<u8>, out: Vec<u8> },
    Chan { nibble: u8, channel: u8, a: u16, b: u8, out: Vec<u8> },
    Common { status: u8, value: u16, out: Vec<u8> },
    RtWrite { byte: u8, out: Vec<u8> },
    RunningWrite { state: Option<u8>, out: Vec<u8>, message: Message },
    Feed(Vec<u8>),
    Chunks { sizes: Vec<usize>, bytes: Vec<u8> },
    Call { state: State, store: Vec<u8>, bytes: Vec<u8> },
    Reset(State),
    Frame(Vec<u8>),
    FrameWrite { head: Head, out: Vec<u8> },
    ReadBack(Head),
    InquiryRequest(Vec<u8>),
    InquiryReply(Vec<u8>),
    WriteRequest { device: Device, out: Vec<u8> },
    WriteReply { device: Device, major: u8, minor: u8, voice: [u8; 2], out: Vec<u8> },
    Held(Vec<[u16; 4]>),
}

impl Request {
    /// The buffer that the request lends to be written, with its contents.
    #[must_use]
    pub fn lent(&self) -> Option<&[u8]> {
        match self {
            Self::Pack { out, .. }
            | Self::Unpack { out, .. }
            | Self::Chan { out, .. }
            | Self::Common { out, .. }
            | Self::RtWrite { out, .. }
            | Self::RunningWrite { out, .. }
            | Self::FrameWrite { out, .. }
            | Self::WriteRequest { out, .. }
            | Self::WriteReply { out, .. } => Some(out),
            _ => None,
        }
    }

    /// The bytes that the request is about, where it has some.
    pub fn bytes_mut(&mut self) -> Option<&mut Vec<u8>> {
        match self {
            Self::Pack { bytes, .. }
            | Self::Unpack { bytes, .. }
            | Self::Feed(bytes)
            | Self::Chunks { bytes, .. }
            | Self::Call { bytes, .. }
            | Self::Frame(bytes)
            | Self::RunningWrite { message: Message::Frame(bytes), .. }
            | Self::InquiryRequest(bytes)
            | Self::InquiryReply(bytes) => Some(bytes),
            Self::FrameWrite { head, .. } | Self::ReadBack(head) => Some(&mut head.run),
            _ => None,
        }
    }
}

/// The words of a line, one after another.
struct Words<'a> {
    rest: std::iter::Filter<std::str::Split<'a, char>, fn(&&str) -> bool>,
}

impl<'a> Words<'a> {
    fn next(&mut self, what: &str) -> Result<&'a str, String> {
        self.rest.next().ok_or_else(|| format!("{what} is missing"))
    }

    fn number<T: std::str::FromStr>(&mut self, what: &str) -> Result<T, String> {
        number(self.next(what)?, what)
    }

    fn bytes(&mut self, what: &str) -> Result<Vec<u8>, String> {
        parse_bytes(self.next(what)?)
    }

    fn device(&mut self) -> Result<Device, String> {
        let word = self.next("DEV")?;
        if word == "all" {
            return Ok(Device::All);
        }
        let unit = word.strip_prefix('u').ok_or("DEV is all or a unit such as u0")?;
        Ok(Device::Unit(number(unit, "unit")?))
    }

    fn flag(&mut self, what: &str) -> Result<bool, String> {
        flag(self.next(what)?, what)
    }

    fn head(&mut self) -> Result<Head, String> {
        Ok(Head {
            device: self.device()?,
            command: self.number("CMD")?,
            free: self.number("FREE")?,
            version: self.number("VER")?,
            bank: self.number("BANK")?,
            program: self.number("PROG")?,
            last: self.number("LAST")?,
            pattern: self.number("PAT")?,
            has: self.flag("HAS")?,
            interface: self.number("IFC")?,
            rx: self.number("RX")?,
            tx: self.number("TX")?,
            run: self.bytes("RUN")?,
        })
    }

    fn state(&mut self) -> Result<State, String> {
        let word = self.next("STATE")?;
        let parts: Vec<&str> = word.split(',').collect();
        let [open, len, status, pending, data0, data1] = parts[..] else {
            return Err("STATE is open,len,status or -,pending,data0,data1".to_string());
        };
        Ok(State {
            open: flag(open, "open")?,
            len: number(len, "len")?,
            status: if status == "-" { None } else { Some(number(status, "status")?) },
            pending: number(pending, "pending")?,
            data0: number(data0, "data0")?,
            data1: number(data1, "data1")?,
        })
    }

    /// The first number of a channel message.
    fn first(&mut self, nibble: u8) -> Result<u16, String> {
        if nibble == 224 {
            self.number("A")
        } else {
            self.number::<u8>("A").map(u16::from)
        }
    }

    fn running(&mut self) -> Result<Option<u8>, String> {
        match self.next("STATE")? {
            "-" => Ok(None),
            status => number(status, "STATE").map(Some),
        }
    }

    /// A message of any kind: the call says whether a record names it.
    fn message(&mut self) -> Result<Message, String> {
        match self.next("MESSAGE")? {
            "ch" => {
                let nibble = self.number("NIBBLE")?;
                Ok(Message::Channel { nibble, channel: self.number("CH")?, a: self.first(nibble)?, b: self.number("B")? })
            }
            "common" => Ok(Message::Common { status: self.number("STATUS")?, value: self.number("VALUE")? }),
            "rt" => Ok(Message::Realtime(self.number("BYTE")?)),
            "frame" => Ok(Message::Frame(self.bytes("BYTES")?)),
            _ => Err("MESSAGE begins with ch, common, rt or frame".to_string()),
        }
    }

    fn messages(&mut self) -> Result<Vec<[u16; 4]>, String> {
        let mut messages = Vec::new();
        for word in self.rest.by_ref() {
            let parts: Vec<&str> = word.split(',').collect();
            let [nibble, channel, a, b] = parts[..] else {
                return Err("a message is NIBBLE,CHANNEL,A,B".to_string());
            };
            let nibble: u8 = number(nibble, "NIBBLE")?;
            known_nibble(nibble)?;
            let first = if nibble == 224 { number::<u16>(a, "A")? } else { u16::from(number::<u8>(a, "A")?) };
            messages.push([u16::from(nibble), u16::from(number::<u8>(channel, "CHANNEL")?), first, u16::from(number::<u8>(b, "B")?)]);
        }
        Ok(messages)
    }
}

pub(crate) fn number<T: std::str::FromStr>(word: &str, what: &str) -> Result<T, String> {
    if word.is_empty() || !word.bytes().all(|c| c.is_ascii_digit()) {
        return Err(format!("{what} is no number"));
    }
    word.parse().map_err(|_| format!("{what} does not fit its place"))
}

fn flag(word: &str, what: &str) -> Result<bool, String> {
    match word {
        "0" => Ok(false),
        "1" => Ok(true),
        _ => Err(format!("{what} is 0 or 1")),
    }
}

fn known_nibble(nibble: u8) -> Result<(), String> {
    if nibble & 15 == 0 && (128..=224).contains(&nibble) {
        Ok(())
    } else {
        Err("no channel message has this nibble".to_string())
    }
}

/// Reads one line.
///
/// # Errors
///
/// Returns why the line is no request, or which kind no record names.
pub fn parse(line: &str) -> Result<Request, String> {
    let mut words = Words { rest: line.split(' ').filter(|word| !word.is_empty()) };
    let word = words.next("a word")?;
    let request = match word {
        "bank" => Request::Bank(words.number("N")?),
        "program" => Request::Program(words.number("N")?),
        "pattern" => Request::Pattern(words.number("N")?),
        "version" => Request::Version(words.number("N")?),
        "device" => Request::Device(words.number("N")?),
        "channel" => Request::Channel(words.number("N")?),
        "interface" => Request::Interface(words.number("N")?),
        "command" => Request::Command(words.number("N")?),
        "rawlen" => Request::RawLen(words.number("VERSION")?),
        "datalen" => Request::DataLen(words.number("STATUS")?),
        "rt" => Request::Rt(words.number("BYTE")?),
        "plen" => Request::PackedLen(words.number("N")?),
        "ulen" => Request::UnpackedLen(words.number("N")?),
        "pack" => Request::Pack { bytes: words.bytes("BYTES")?, out: words.bytes("OUT")? },
        "unpack" => Request::Unpack { bytes: words.bytes("BYTES")?, out: words.bytes("OUT")? },
        "chan" => chan(&mut words)?,
        "common" => common(&mut words)?,
        "rtw" => realtime(&mut words)?,
        "rsw" => Request::RunningWrite { state: words.running()?, out: words.bytes("OUT")?, message: words.message()? },
        "feed" => Request::Feed(words.bytes("BYTES")?),
        "chunks" => Request::Chunks { sizes: sizes(words.next("SIZES")?)?, bytes: words.bytes("BYTES")? },
        "call" => Request::Call { state: words.state()?, store: words.bytes("STORE")?, bytes: words.bytes("BYTES")? },
        "reset" => Request::Reset(words.state()?),
        "frame" => Request::Frame(words.bytes("BYTES")?),
        "fwrite" => Request::FrameWrite { head: words.head()?, out: words.bytes("OUT")? },
        "readback" => Request::ReadBack(words.head()?),
        "ireq" => Request::InquiryRequest(words.bytes("BYTES")?),
        "irep" => Request::InquiryReply(words.bytes("BYTES")?),
        "wreq" => Request::WriteRequest { device: words.device()?, out: words.bytes("OUT")? },
        "wrep" => Request::WriteReply {
            device: words.device()?,
            major: words.number("MAJOR")?,
            minor: words.number("MINOR")?,
            voice: [words.number("V1")?, words.number("V2")?],
            out: words.bytes("OUT")?,
        },
        "held" => Request::Held(words.messages()?),
        _ => return Err(format!("{word} is no word of the bench")),
    };
    match words.rest.next() {
        None => Ok(request),
        Some(more) => Err(format!("{more} is one word too many")),
    }
}

fn chan(words: &mut Words<'_>) -> Result<Request, String> {
    let nibble: u8 = words.number("NIBBLE")?;
    known_nibble(nibble)?;
    let channel = words.number("CHANNEL")?;
    Ok(Request::Chan { nibble, channel, a: words.first(nibble)?, b: words.number("B")?, out: words.bytes("OUT")? })
}

fn common(words: &mut Words<'_>) -> Result<Request, String> {
    let status: u8 = words.number("STATUS")?;
    if !matches!(status, 241 | 242 | 243 | 246) {
        return Err("no system common message has this status".to_string());
    }
    Ok(Request::Common { status, value: words.number("VALUE")?, out: words.bytes("OUT")? })
}

fn realtime(words: &mut Words<'_>) -> Result<Request, String> {
    let byte: u8 = words.number("BYTE")?;
    if !matches!(byte, 248 | 250 | 251 | 252 | 254 | 255) {
        return Err("no real-time message has this byte".to_string());
    }
    Ok(Request::RtWrite { byte, out: words.bytes("OUT")? })
}

fn sizes(word: &str) -> Result<Vec<usize>, String> {
    let sizes: Vec<usize> = word.split(',').map(|size| number(size, "size")).collect::<Result<_, _>>()?;
    if sizes.iter().all(|size| *size == 0) {
        return Err("SIZES would hand in nothing for ever".to_string());
    }
    Ok(sizes)
}
