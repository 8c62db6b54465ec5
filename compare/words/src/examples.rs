//! The examples of the bench's page, and what the original's bench says to each.

/// The bench's page.
pub const PAGE: &str = include_str!("../../../docs/BENCH.md");

/// Lines that are no requests.
pub const MALFORMED: [&str; 8] = ["", "nothing", "bank", "bank 256", "bank 1 2", "feed f", "held 144,0,1", "fwrite u0 3 0 0 0 0 0 0 2 0 0 0 - -"];

/// The page's requests and answers, in its order: its lines that begin with four blanks, the request and the answer apart by two blanks or more.
#[must_use]
pub fn examples() -> Vec<(&'static str, &'static str)> {
    let rows = PAGE.lines().filter_map(|line| line.strip_prefix("    "));
    rows.map(|row| row.split_once("  ").unwrap_or((row, ""))).map(|(request, answer)| (request, answer.trim())).collect()
}

/// What the original's bench answers where the page has this answer: nothing is made up for calls that it lacks, and hand-made records that it
/// cannot hold or would not refuse are passed over.
#[must_use]
pub fn of_original(request: &str, answer: &str) -> String {
    let word = request.split(' ').next().unwrap_or_default();
    if matches!(word, "common" | "rtw" | "rsw" | "call" | "reset" | "held") {
        return "? the original has no such call".to_string();
    }
    if may_skip(word) && refused_by_hand(answer) {
        return "skip".to_string();
    }
    answer.to_string()
}

/// The words whose hand-made records the original's bench may pass over.
#[must_use]
pub fn may_skip(word: &str) -> bool {
    matches!(word, "chan" | "fwrite" | "readback" | "wreq" | "wrep" | "plen" | "pack")
}

/// The numbers that may turn down a hand-made record where the original cannot hold it or would not refuse it.
#[must_use]
pub fn refused_by_hand(answer: &str) -> bool {
    let number = answer.strip_prefix("no ").and_then(|rest| rest.split(' ').next()).and_then(|number| number.parse::<u8>().ok());
    number.is_some_and(by_hand)
}

/// The same, of a number.
#[must_use]
pub fn by_hand(number: u8) -> bool {
    matches!(number, 5 | 6 | 8..=12 | 17 | 20..=22)
}

/// Pipes requests, with malformed lines between them, through a bench's program, and gives its answers to the requests. It panics where
/// a malformed line is not answered `? ...`, or an answer is missing.
#[must_use]
pub fn through(program: &str, requests: &[&str]) -> Vec<String> {
    use std::io::Write as _;
    use std::process::{Command, Stdio};
    let lines: Vec<&str> = requests.iter().zip(MALFORMED.iter().cycle()).flat_map(|(request, bad)| [*bad, *request]).collect();
    let mut child = Command::new(program).stdin(Stdio::piped()).stdout(Stdio::piped()).spawn().expect("the bench starts");
    let mut input = child.stdin.take().expect("its input");
    let text = lines.join("\n") + "\n";
    let writer = std::thread::spawn(move || input.write_all(text.as_bytes()));
    let output = child.wait_with_output().expect("the bench ends");
    writer.join().expect("the writer ends").expect("every line is taken");
    assert!(output.status.success());
    let said = String::from_utf8(output.stdout).expect("answers are text");
    let said: Vec<&str> = said.lines().collect();
    assert_eq!(said.len(), lines.len(), "one answer for each line");
    for (bad, answer) in lines.iter().zip(&said).step_by(2) {
        assert!(answer.starts_with("? "), "'{bad}' was answered '{answer}'");
    }
    said.into_iter().skip(1).step_by(2).map(str::to_string).collect()
}
