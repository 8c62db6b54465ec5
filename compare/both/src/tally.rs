//! Two answers to each request, compared and counted.

use std::collections::BTreeMap;

use engine::bench::Engine;
use words::examples::{by_hand, may_skip};
use words::{Answer, Bench, Request};

use crate::chains::{Writer, Written};

/// A request that the two answer differently.
#[derive(Debug, Clone)]
pub struct Difference {
    pub request: String,
    pub original: String,
    pub engine: String,
    /// How many requests of the word differed.
    pub seen: u64,
    /// The fewer bytes, and then the shorter line, the shorter the request.
    pub(crate) measure: (usize, usize),
}

/// Differences of a word that are made shorter though a shorter one is known.
const TRIED: u64 = 8;

fn measure(request: &Request) -> (usize, usize) {
    let bytes = request.clone().bytes_mut().map_or(0, |bytes| bytes.len());
    (bytes, request.to_string().len())
}

/// How two answers stand to each other.
#[derive(Debug, Clone, Copy, PartialEq, Eq)]
enum Verdict {
    Alike,
    PassedOver,
    Different,
}

/// Both benches, and what was found.
pub struct Tally {
    pub(crate) engine: Engine,
    pub(crate) original: Box<dyn Bench>,
    pub(crate) writer: Writer,
    pub(crate) alike: BTreeMap<&'static str, u64>,
    pub(crate) written: Written,
    passed_over: BTreeMap<&'static str, u64>,
    pub(crate) differences: BTreeMap<&'static str, Difference>,
    ours: Vec<u8>,
    theirs: Vec<u8>,
}

impl Tally {
    #[must_use]
    pub fn new(original: Box<dyn Bench>) -> Self {
        Self {
            engine: Engine::new(),
            original,
            writer: engine::running::write,
            alike: BTreeMap::new(),
            written: Written::default(),
            passed_over: BTreeMap::new(),
            differences: BTreeMap::new(),
            ours: Vec::new(),
            theirs: Vec::new(),
        }
    }

    /// Another writer of chains than the engine's.
    #[must_use]
    pub fn with_writer(self, writer: Writer) -> Self {
        Self { writer, ..self }
    }

    /// Asks both, and counts.
    pub fn ask(&mut self, request: &Request) {
        match self.verdict(request) {
            Verdict::Alike => *self.alike.entry(request.word()).or_default() += 1,
            Verdict::PassedOver => *self.passed_over.entry(request.word()).or_default() += 1,
            Verdict::Different => self.note(request.clone()),
        }
    }

    /// The request `feed`, or with sizes `chunks`, compared report by report with no text made unless they differ.
    pub fn stream(&mut self, sizes: Option<&[usize]>, bytes: &[u8]) {
        let word = if sizes.is_some() { "chunks" } else { "feed" };
        if self.same_reports(sizes, bytes) {
            *self.alike.entry(word).or_default() += 1;
        } else {
            let bytes = bytes.to_vec();
            self.note(sizes.map_or(Request::Feed(bytes.clone()), |sizes| Request::Chunks { sizes: sizes.to_vec(), bytes }));
        }
    }

    /// Both must answer as a row says.
    pub fn row(&mut self, request: &Request, original: &str, engine: &str) {
        let said = (words::respond(self.original.as_mut(), request), words::respond(&mut self.engine, request));
        if said.0 == original && said.1 == engine {
            *self.alike.entry("rows").or_default() += 1;
        } else {
            self.keep("rows", Difference { request: request.to_string(), original: said.0, engine: said.1, seen: 1, measure: measure(request) });
        }
    }

    /// What the original answers, for those who make requests of it.
    pub fn original_accepts(&mut self, request: &Request) -> bool {
        matches!(self.original.answer(request, &mut []), Answer::Ok(_))
    }

    /// How many requests of each word were answered alike.
    #[must_use]
    pub fn alike(&self) -> &BTreeMap<&'static str, u64> {
        &self.alike
    }

    /// How much was written of the chains that were read alike.
    #[must_use]
    pub fn written(&self) -> Written {
        self.written
    }

    /// How many hand-made records of each word were passed over.
    #[must_use]
    pub fn passed_over(&self) -> &BTreeMap<&'static str, u64> {
        &self.passed_over
    }

    /// For each word the shortest request found that shows a difference.
    #[must_use]
    pub fn differences(&self) -> &BTreeMap<&'static str, Difference> {
        &self.differences
    }

    fn same_reports(&mut self, sizes: Option<&[usize]>, bytes: &[u8]) -> bool {
        let places = sizes.is_none();
        let open = [(&mut self.engine as &mut dyn Bench, &mut self.ours), (self.original.as_mut(), &mut self.theirs)].map(|(bench, said)| {
            said.clear();
            bench.decode(sizes, bytes, &mut |place, report| {
                if places {
                    said.extend_from_slice(&place.to_le_bytes());
                }
                report.put(said);
            })
        });
        self.ours == self.theirs && open[0] == open[1]
    }

    /// A record is passed over only where the original cannot say, the word allows it, the engine gave one of the numbers that the
    /// original has no test for, and its buffer is as it was.
    fn verdict(&mut self, request: &Request) -> Verdict {
        let alike = match request {
            Request::Feed(bytes) => Some(self.same_reports(None, bytes)),
            Request::Chunks { sizes, bytes } => Some(self.same_reports(Some(sizes), bytes)),
            _ => None,
        };
        if let Some(alike) = alike {
            return if alike { Verdict::Alike } else { Verdict::Different };
        }
        let lent = request.lent().unwrap_or_default();
        let [ours, theirs] =
            [(&mut self.engine as &mut dyn Bench, &mut self.ours), (self.original.as_mut(), &mut self.theirs)].map(|(bench, out)| {
                out.clear();
                out.extend_from_slice(lent);
                bench.answer(request, out)
            });
        match (&ours, &theirs) {
            (Answer::No(number, _), Answer::Skip) if by_hand(*number) && may_skip(request.word()) && self.ours == lent => Verdict::PassedOver,
            (_, Answer::Skip) => Verdict::Different,
            _ if ours == theirs && self.ours == self.theirs => Verdict::Alike,
            _ => Verdict::Different,
        }
    }

    /// Keeps a difference, made as short as can be, where it is shorter than the one that is known.
    fn note(&mut self, request: Request) {
        let word = request.word();
        if let Some(known) = self.differences.get_mut(word) {
            known.seen += 1;
            if known.seen > TRIED && known.measure <= measure(&request) {
                return;
            }
        }
        let request = self.shortened(request);
        let original = words::respond(self.original.as_mut(), &request);
        let engine = words::respond(&mut self.engine, &request);
        self.keep(word, Difference { request: request.to_string(), original, engine, seen: 1, measure: measure(&request) });
    }

    pub(crate) fn keep(&mut self, word: &'static str, found: Difference) {
        match self.differences.get_mut(word) {
            Some(known) if known.measure <= found.measure => {}
            Some(known) => *known = Difference { seen: known.seen, ..found },
            None => {
                self.differences.insert(word, found);
            }
        }
    }

    /// Takes bytes out of a request as long as the two still differ, and writes 01 for each data byte that makes no difference.
    fn shortened(&mut self, mut request: Request) -> Request {
        let mut cut = request.bytes_mut().map_or(0, |bytes| bytes.len());
        while cut > 0 {
            let mut at = 0;
            while request.bytes_mut().is_some_and(|bytes| at + cut <= bytes.len()) {
                let mut less = request.clone();
                if let Some(bytes) = less.bytes_mut() {
                    bytes.drain(at..at + cut);
                }
                if self.verdict(&less) == Verdict::Different {
                    request = less;
                } else {
                    at += cut;
                }
            }
            cut /= 2;
        }
        for place in 0..request.bytes_mut().map_or(0, |bytes| bytes.len()) {
            let mut plainer = request.clone();
            if let Some(byte) = plainer.bytes_mut().and_then(|bytes| bytes.get_mut(place)).filter(|byte| **byte < 0x80) {
                *byte = 1;
            }
            if self.verdict(&plainer) == Verdict::Different {
                request = plainer;
            }
        }
        request
    }
}
