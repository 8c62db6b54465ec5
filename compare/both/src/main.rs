//! Feeds the engine and the original the same requests, in one process, and compares their answers.
//!
//! It prints how many requests of each word were compared and how many hand-made records were passed over, how many bytes the chains of messages
//! took, and each difference as the shortest request found that shows it. It ends with status 1 where there is one.

use std::process::ExitCode;

use both::{ask, Size, Tally};
use origin::bench::Origin;

const USAGE: &str = "usage: compare [--small] [--original-limit 2353]
  asks the engine and the original the same requests, which it makes itself; with no words, some tens of millions
  --small                 about a minute's work or less
  --original-limit 2353   an original with another frame limit, to show that a difference is seen";

fn main() -> ExitCode {
    let words: Vec<String> = std::env::args().skip(1).collect();
    let mut words: Vec<&str> = words.iter().map(String::as_str).collect();
    let whole = words.len();
    words.retain(|word| *word != "--small");
    let size = if words.len() < whole { Size::Small } else { Size::Whole };
    let mut tally = match words[..] {
        [] => Tally::new(Box::new(Origin::<2354>)),
        ["--original-limit", "2353"] => Tally::new(Box::new(Origin::<2353>)),
        _ => {
            eprintln!("{USAGE}");
            return ExitCode::from(2);
        }
    };
    ask(&mut tally, size);
    say(&tally)
}

fn say(tally: &Tally) -> ExitCode {
    for (word, count) in tally.alike() {
        match tally.passed_over().get(word) {
            Some(passed) => println!("{word}: {count} answered alike, {passed} hand-made records passed over"),
            None => println!("{word}: {count} answered alike"),
        }
    }
    let written = tally.written();
    let saved = written.plain - written.shortened;
    println!("chains: {} messages, {} bytes for {} with every status byte, {saved} saved", written.messages, written.shortened, written.plain);
    let alike: u64 = tally.alike().values().sum();
    let passed: u64 = tally.passed_over().values().sum();
    let different: u64 = tally.differences().values().map(|found| found.seen).sum();
    for (word, found) in tally.differences() {
        println!("{word}: {} differ; the shortest found is '{}'", found.seen, found.request);
        println!("  the original: {}\n  the engine:   {}", found.original, found.engine);
    }
    println!("compare: {alike} requests answered alike, {passed} hand-made records passed over, {different} answered differently");
    if different == 0 {
        ExitCode::SUCCESS
    } else {
        ExitCode::FAILURE
    }
}
