//! Writes the records that crates/replay replays: a request, a tab, and the answer of the original Rust, one record a line.
//!
//! Requests are picked by hand at every limit, and drawn by a generator with a fixed seed, so that each run writes the same file.
//! What the original cannot answer (`skip`) is left out. The run fails where a word would lack a refusal number that it can give.
//! With the word `altered` it writes for each word one record as it is and four with an altered answer, which the replay must tell apart.

use std::collections::{BTreeMap, BTreeSet};
use std::io::{self, Write as _};
use std::process::ExitCode;

use origin::bench::Origin;

#[path = "record/drawn.rs"]
mod drawn;
#[path = "record/requests.rs"]
mod requests;

/// The frame limit.
const LIMIT: usize = 2354;

/// The refusal numbers that the original can give for each word, in answers or, for streams, in reports.
const REFUSALS: [(&str, &[u8]); 25] = [
    ("bank", &[9]),
    ("program", &[10]),
    ("pattern", &[11]),
    ("version", &[8]),
    ("device", &[5]),
    ("channel", &[17]),
    ("interface", &[12]),
    ("command", &[6]),
    ("rawlen", &[8]),
    ("datalen", &[]),
    ("rt", &[]),
    ("plen", &[]),
    ("ulen", &[13]),
    ("pack", &[14]),
    ("unpack", &[13, 14]),
    ("chan", &[14]),
    ("feed", &[18, 19]),
    ("chunks", &[18, 19]),
    // a program byte of 128 and above is refused with 2 before it can be with 10
    ("frame", &[1, 2, 3, 4, 5, 6, 7, 8, 9, 11, 12, 13]),
    ("fwrite", &[2, 14]),
    ("readback", &[2, 7, 11, 13]),
    ("ireq", &[1, 5, 15]),
    ("irep", &[1, 5, 16]),
    ("wreq", &[14]),
    ("wrep", &[14]),
];

fn main() -> ExitCode {
    let arguments: Vec<String> = std::env::args().skip(1).collect();
    let told = match arguments.iter().map(String::as_str).collect::<Vec<_>>()[..] {
        [] => records().and_then(|records| checked(&records).map(|()| records)),
        ["altered"] => records().and_then(|records| altered(&records)),
        _ => {
            eprintln!("usage: record [altered]    (writes records on standard output)");
            return ExitCode::from(2);
        }
    };
    match told.and_then(|records| write(&records)) {
        Ok(()) => ExitCode::SUCCESS,
        Err(why) => {
            eprintln!("record: {why}");
            ExitCode::FAILURE
        }
    }
}

/// A request and an answer.
type Record = (String, String);

fn word(record: &Record) -> &str {
    record.0.split(' ').next().unwrap_or_default()
}

fn write(records: &[Record]) -> Result<(), String> {
    let mut output = io::stdout().lock();
    for (request, answer) in records {
        writeln!(output, "{request}\t{answer}").map_err(|error| error.to_string())?;
    }
    output.flush().map_err(|error| error.to_string())
}

/// Every request once, with the original's answer.
fn records() -> Result<Vec<Record>, String> {
    let mut seen = BTreeSet::new();
    let mut records = Vec::new();
    for request in requests::all() {
        if !seen.insert(request.clone()) {
            continue;
        }
        let answer = words::line(&mut Origin::<LIMIT>, &request);
        if answer == "skip" {
            continue;
        }
        if answer.starts_with('?') || answer.len() > 16_000 || request.len() + answer.len() > 65_000 {
            return Err(format!("{request} is not for the file: {answer}"));
        }
        records.push((request, answer));
    }
    Ok(records)
}

/// Each word gave just the numbers that it can give.
fn checked(records: &[Record]) -> Result<(), String> {
    let mut numbers: BTreeMap<&str, BTreeSet<u8>> = BTreeMap::new();
    for record in records {
        numbers.entry(word(record)).or_default().extend(refusals(&record.1));
    }
    for (word, wanted) in REFUSALS {
        let given: Vec<u8> = numbers.get(word).ok_or(format!("{word} was not asked"))?.iter().copied().collect();
        if given != wanted {
            return Err(format!("{word} gave the numbers {given:?}, and {wanted:?} were expected"));
        }
    }
    Ok(())
}

/// For each word its longest short record as it is, then with the last sign changed, a sign in the middle changed, one dropped, one added.
fn altered(records: &[Record]) -> Result<Vec<Record>, String> {
    let mut all = Vec::new();
    for (name, _) in REFUSALS {
        let short = records.iter().filter(|record| word(record) == name && record.1.len() < 100);
        let (request, answer) = short.max_by_key(|record| record.1.len()).ok_or(format!("{name} has no short record"))?;
        let signs = answer.as_bytes();
        let turned = |at: usize| {
            let mut signs = signs.to_vec();
            signs[at] = if signs[at] == b'1' { b'2' } else { b'1' };
            String::from_utf8_lossy(&signs).into_owned()
        };
        let (last, middle) = (turned(signs.len() - 1), turned(signs.len() / 2));
        let (fewer, more) = (answer[..answer.len() - 1].to_string(), format!("{answer}0"));
        all.extend([answer.clone(), last, middle, fewer, more].map(|answer| (request.clone(), answer)));
    }
    Ok(all)
}

/// The refusal numbers in an answer, and in its reports.
fn refusals(answer: &str) -> Vec<u8> {
    if let Some(rest) = answer.strip_prefix("no ") {
        return rest.split(' ').next().and_then(|number| number.parse().ok()).into_iter().collect();
    }
    let reports = answer.split(' ').filter_map(|word| word.rsplit(':').next()?.strip_prefix('e'));
    reports.filter_map(|report| report.split(',').next()?.parse().ok()).collect()
}
