//! The bench's words: one request a line, one answer a line.
//!
//! A [`Request`] is a line taken apart; a [`Bench`] answers requests, and says so in an [`Answer`]; [`run`] reads lines and writes answers.

mod bytes;
pub mod examples;
mod message;
mod report;
mod request;
mod show;

pub use bytes::{hex, parse_bytes, short_hex};
pub use message::Message;
pub use report::{pieces, Report};
pub use request::{parse, Device, Head, Request, State};

use std::fmt::Write as _;
use std::io::{self, BufRead, Write};
use std::process::ExitCode;

/// What is answered to a request.
#[derive(Debug, Clone, PartialEq, Eq)]
pub enum Answer {
    /// `ok`, with what follows it.
    Ok(String),
    /// `no`, the refusal's number and its details in the table's order.
    No(u8, Vec<u64>),
    /// The line is no request, or names what no record names.
    What(String),
    /// A whole line, for the words that show more than an answer.
    Whole(String),
    /// This bench cannot say: its types cannot hold the record, or it would not refuse what has to be refused.
    Skip,
}

impl Answer {
    /// `ok` and a number.
    #[must_use]
    pub fn number(n: u64) -> Self {
        Self::Ok(n.to_string())
    }

    /// The answer as it is printed, without the buffer behind it.
    #[must_use]
    pub fn text(&self) -> String {
        match self {
            Self::Ok(rest) if rest.is_empty() => "ok".to_string(),
            Self::Ok(rest) => format!("ok {rest}"),
            Self::No(number, details) => {
                let mut text = format!("no {number}");
                for detail in details {
                    let _ = write!(text, " {detail}");
                }
                text
            }
            Self::What(why) => format!("? {why}"),
            Self::Whole(line) => line.clone(),
            Self::Skip => "skip".to_string(),
        }
    }

    /// The answer as it is printed, with the buffer behind it where one was lent.
    #[must_use]
    pub fn with_buffer(&self, out: Option<&[u8]>) -> String {
        match (self, out) {
            (Self::Ok(_) | Self::No(..), Some(out)) => format!("{} | {}", self.text(), hex(out)),
            _ => self.text(),
        }
    }
}

/// A program that answers requests.
pub trait Bench {
    /// Answers one request. A request that lends a buffer gets it as it is to be lent, and leaves in it what the call left.
    fn answer(&mut self, request: &Request, out: &mut [u8]) -> Answer;

    /// Decodes bytes from a fresh decoder, handed in in pieces of these sizes, and says whether a frame is open at the end. With no sizes each
    /// report comes with the place of its byte; with sizes the place means nothing.
    fn decode(&mut self, sizes: Option<&[usize]>, bytes: &[u8], report: &mut dyn FnMut(usize, Report<'_>)) -> bool;
}

/// The answer to `feed`, and with sizes to `chunks`.
pub fn decoded<B: Bench>(bench: &mut B, sizes: Option<&[usize]>, bytes: &[u8]) -> Answer {
    let mut said = Vec::new();
    let open = bench.decode(sizes, bytes, &mut |place, report| {
        said.push(if sizes.is_none() { format!("{place}:{}", report.text()) } else { report.text() });
    });
    if sizes.is_none() {
        said.push(format!("open={}", u8::from(open)));
    }
    Answer::Ok(said.join(" "))
}

/// Answers one request, with the buffer behind it.
pub fn respond(bench: &mut dyn Bench, request: &Request) -> String {
    let mut out = request.lent().map(<[u8]>::to_vec);
    let answer = bench.answer(request, out.as_deref_mut().unwrap_or_default());
    answer.with_buffer(out.as_deref())
}

/// Answers one line.
pub fn line(bench: &mut dyn Bench, text: &str) -> String {
    match parse(text) {
        Ok(request) => respond(bench, &request),
        Err(why) => Answer::What(why).text(),
    }
}

/// Answers every line of standard input on standard output. A line that is no text is no request.
fn run(bench: &mut dyn Bench) -> io::Result<()> {
    let mut output = io::stdout().lock();
    for bytes in io::stdin().lock().split(b'\n') {
        let said = match String::from_utf8(bytes?) {
            Ok(text) => line(bench, text.strip_suffix('\r').unwrap_or(&text)),
            Err(_) => Answer::What("the line is no text".to_string()).text(),
        };
        writeln!(output, "{said}")?;
    }
    output.flush()
}

/// The whole of a bench's program, which takes no words.
pub fn main(name: &str, bench: &mut dyn Bench) -> ExitCode {
    if std::env::args().len() != 1 {
        eprintln!("usage: {name}    (reads requests on standard input, one a line, and answers each on standard output; it takes no words)");
        return ExitCode::from(2);
    }
    match run(bench) {
        Ok(()) => ExitCode::SUCCESS,
        Err(error) => {
            eprintln!("{name}: {error}");
            ExitCode::FAILURE
        }
    }
}
