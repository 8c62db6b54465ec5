//! Bytes as the bench writes them: lower-case hexadecimal, `-` for none, `00*9` for nine bytes 00, parts joined by `.`.

use std::fmt::Write as _;

/// The most bytes that one word may stand for: far beyond every length that matters, and short enough to hold.
const MOST: usize = 1 << 24;

const DIGITS: &[u8; 16] = b"0123456789abcdef";

/// Bytes as answers have them: plain hexadecimal, `-` for none.
#[must_use]
pub fn hex(bytes: &[u8]) -> String {
    if bytes.is_empty() {
        return "-".to_string();
    }
    let mut text = String::with_capacity(bytes.len() * 2);
    for byte in bytes {
        text.push(char::from(DIGITS[usize::from(byte >> 4)]));
        text.push(char::from(DIGITS[usize::from(byte & 15)]));
    }
    text
}

/// Bytes as requests may have them: the same byte more than four times is written once, with its count.
#[must_use]
pub fn short_hex(bytes: &[u8]) -> String {
    let mut parts: Vec<String> = Vec::new();
    let mut plain = Vec::new();
    for same in bytes.chunk_by(|a, b| a == b) {
        if same.len() <= 4 {
            plain.extend_from_slice(same);
            continue;
        }
        if !plain.is_empty() {
            parts.push(hex(&plain));
            plain.clear();
        }
        let mut part = hex(&same[..1]);
        let _ = write!(part, "*{}", same.len());
        parts.push(part);
    }
    if !plain.is_empty() || parts.is_empty() {
        parts.push(hex(&plain));
    }
    parts.join(".")
}

/// Reads bytes as requests have them.
///
/// # Errors
///
/// Returns why the word is no bytes.
pub fn parse_bytes(word: &str) -> Result<Vec<u8>, String> {
    if word == "-" {
        return Ok(Vec::new());
    }
    let mut bytes = Vec::new();
    for part in word.split('.') {
        let (digits, times) = match part.split_once('*') {
            Some((digits, times)) => (digits, crate::request::number::<usize>(times, "a count")?),
            None => (part, 1),
        };
        let once = plain(digits)?;
        if times.saturating_mul(once.len()).saturating_add(bytes.len()) > MOST {
            return Err("more bytes than the bench takes".to_string());
        }
        for _ in 0..times {
            bytes.extend_from_slice(&once);
        }
    }
    Ok(bytes)
}

fn plain(digits: &str) -> Result<Vec<u8>, String> {
    let digits = digits.as_bytes();
    if digits.is_empty() || digits.len() & 1 == 1 {
        return Err("bytes are pairs of hexadecimal digits".to_string());
    }
    digits.chunks(2).map(|pair| Ok(digit(pair[0])? * 16 + digit(pair[1])?)).collect()
}

fn digit(c: u8) -> Result<u8, String> {
    match c {
        b'0'..=b'9' => Ok(c - b'0'),
        b'a'..=b'f' => Ok(c - b'a' + 10),
        _ => Err("bytes are hexadecimal digits in lower case".to_string()),
    }
}
