//! The original's error type, which lies outside the listed files.

/// Why something was turned down: a case for each number of document 01 that the original can give, and the one that belongs to text.
#[derive(Debug, Clone, Copy, PartialEq, Eq)]
pub enum Error {
    Unframed,
    NotSevenBit(u8),
    ShortFrame(usize),
    Foreign { manufacturer: [u8; 3], model: u8 },
    InvalidDeviceId(u8),
    UnknownCommand(u8),
    PayloadLength { command: u8, expected: usize, found: usize },
    UnsupportedProtocolVersion(u8),
    BankOutOfRange(u8),
    ProgramOutOfRange(u8),
    PatternOutOfRange(u8),
    InvalidInterface(u8),
    PackedRunLength(usize),
    BufferTooSmall { needed: usize, available: usize },
    NotAnInquiryRequest,
    NotAnInquiryResponse,
    ChannelOutOfRange(u8),
    SysExInterrupted,
    SysExTooLong(usize),
    BankLetter(char),
}

/// The original's result.
pub type Result<T> = core::result::Result<T, Error>;

impl Error {
    /// Document 01's number and details; none for a bank's letter.
    #[must_use]
    pub fn told(self) -> Option<(u8, Vec<u64>)> {
        let one = |byte: u8| vec![u64::from(byte)];
        let many = |lengths: &[usize]| lengths.iter().map(|length| *length as u64).collect::<Vec<u64>>();
        Some(match self {
            Self::Unframed => (1, vec![]),
            Self::NotSevenBit(byte) => (2, one(byte)),
            Self::ShortFrame(length) => (3, many(&[length])),
            Self::Foreign { manufacturer, model } => (4, manufacturer.iter().chain([&model]).map(|byte| u64::from(*byte)).collect()),
            Self::InvalidDeviceId(byte) => (5, one(byte)),
            Self::UnknownCommand(byte) => (6, one(byte)),
            Self::PayloadLength { command, expected, found } => (7, many(&[usize::from(command), expected, found])),
            Self::UnsupportedProtocolVersion(byte) => (8, one(byte)),
            Self::BankOutOfRange(byte) => (9, one(byte)),
            Self::ProgramOutOfRange(byte) => (10, one(byte)),
            Self::PatternOutOfRange(byte) => (11, one(byte)),
            Self::InvalidInterface(byte) => (12, one(byte)),
            Self::PackedRunLength(length) => (13, many(&[length])),
            Self::BufferTooSmall { needed, available } => (14, many(&[needed, available])),
            Self::NotAnInquiryRequest => (15, vec![]),
            Self::NotAnInquiryResponse => (16, vec![]),
            Self::ChannelOutOfRange(byte) => (17, one(byte)),
            Self::SysExInterrupted => (18, vec![]),
            Self::SysExTooLong(limit) => (19, many(&[limit])),
            Self::BankLetter(_) => return None,
        })
    }
}
