//! A request as a line.

use std::fmt;

use crate::bytes::short_hex;
use crate::request::{Device, Head, Request, State};

impl Request {
    /// The request's word.
    #[must_use]
    pub fn word(&self) -> &'static str {
        match self {
            Self::Bank(_) => "bank",
            Self::Program(_) => "program",
            Self::Pattern(_) => "pattern",
            Self::Version(_) => "version",
            Self::Device(_) => "device",
            Self::Channel(_) => "channel",
            Self::Interface(_) => "interface",
            Self::Command(_) => "command",
            Self::RawLen(_) => "rawlen",
            Self::DataLen(_) => "datalen",
            Self::Rt(_) => "rt",
            Self::PackedLen(_) => "plen",
            Self::UnpackedLen(_) => "ulen",
            Self::Pack { .. } => "pack",
            Self::Unpack { .. } => "unpack",
            Self::Chan { .. } => "chan",
            Self::Common { .. } => "common",
            Self::RtWrite { .. } => "rtw",
            Self::RunningWrite { .. } => "rsw",
            Self::Feed(_) => "feed",
            Self::Chunks { .. } => "chunks",
            Self::Call { .. } => "call",
            Self::Reset(_) => "reset",
            Self::Frame(_) => "frame",
            Self::FrameWrite { .. } => "fwrite",
            Self::ReadBack(_) => "readback",
            Self::InquiryRequest(_) => "ireq",
            Self::InquiryReply(_) => "irep",
            Self::WriteRequest { .. } => "wreq",
            Self::WriteReply { .. } => "wrep",
            Self::Held(_) => "held",
        }
    }
}

impl fmt::Display for Device {
    fn fmt(&self, f: &mut fmt::Formatter<'_>) -> fmt::Result {
        match self {
            Self::All => f.write_str("all"),
            Self::Unit(unit) => write!(f, "u{unit}"),
        }
    }
}

impl fmt::Display for State {
    fn fmt(&self, f: &mut fmt::Formatter<'_>) -> fmt::Result {
        let status = self.status.map_or_else(|| "-".to_string(), |status| status.to_string());
        write!(f, "{},{},{status},{},{},{}", u8::from(self.open), self.len, self.pending, self.data0, self.data1)
    }
}

impl fmt::Display for Head {
    fn fmt(&self, f: &mut fmt::Formatter<'_>) -> fmt::Result {
        write!(f, "{} {} {} {} {}", self.device, self.command, self.free, self.version, self.bank)?;
        write!(f, " {} {} {} {}", self.program, self.last, self.pattern, u8::from(self.has))?;
        write!(f, " {} {} {} {}", self.interface, self.rx, self.tx, short_hex(&self.run))
    }
}

impl fmt::Display for Request {
    fn fmt(&self, f: &mut fmt::Formatter<'_>) -> fmt::Result {
        f.write_str(self.word())?;
        match self {
            Self::Bank(n)
            | Self::Program(n)
            | Self::Pattern(n)
            | Self::Version(n)
            | Self::Device(n)
            | Self::Channel(n)
            | Self::Interface(n)
            | Self::Command(n)
            | Self::RawLen(n)
            | Self::DataLen(n)
            | Self::Rt(n) => write!(f, " {n}"),
            Self::PackedLen(n) | Self::UnpackedLen(n) => write!(f, " {n}"),
            Self::Pack { bytes, .. } | Self::Unpack { bytes, .. } => write!(f, " {}", short_hex(bytes)),
            Self::Chan { nibble, channel, a, b, .. } => write!(f, " {nibble} {channel} {a} {b}"),
            Self::Common { status, value, .. } => write!(f, " {status} {value}"),
            Self::RtWrite { byte, .. } => write!(f, " {byte}"),
            Self::RunningWrite { state, out, message } => {
                let state = state.map_or_else(|| "-".to_string(), |status| status.to_string());
                return write!(f, " {state} {} {message}", short_hex(out));
            }
            Self::Feed(bytes) | Self::Frame(bytes) | Self::InquiryRequest(bytes) | Self::InquiryReply(bytes) => write!(f, " {}", short_hex(bytes)),
            Self::Chunks { sizes, bytes } => {
                let sizes: Vec<String> = sizes.iter().map(usize::to_string).collect();
                write!(f, " {} {}", sizes.join(","), short_hex(bytes))
            }
            Self::Call { state, store, bytes } => write!(f, " {state} {} {}", short_hex(store), short_hex(bytes)),
            Self::Reset(state) => write!(f, " {state}"),
            Self::FrameWrite { head, .. } | Self::ReadBack(head) => write!(f, " {head}"),
            Self::WriteRequest { device, .. } => write!(f, " {device}"),
            Self::WriteReply { device, major, minor, voice, .. } => write!(f, " {device} {major} {minor} {} {}", voice[0], voice[1]),
            Self::Held(messages) => messages.iter().try_for_each(|[nibble, channel, a, b]| write!(f, " {nibble},{channel},{a},{b}")),
        }?;
        self.lent().map_or(Ok(()), |out| write!(f, " {}", short_hex(out)))
    }
}
