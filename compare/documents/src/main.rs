//! Draws the crates: reads crates.txt and which of crates/ are programs, and writes the picture to standard output.

use std::path::Path;
use std::process::ExitCode;

fn main() -> ExitCode {
    let words: Vec<String> = std::env::args().skip(1).collect();
    let [path] = &words[..] else {
        eprintln!("usage: picture crates.txt");
        return ExitCode::from(2);
    };
    match std::fs::read_to_string(path) {
        Ok(text) => {
            let folder = Path::new(path).parent().unwrap_or(Path::new(""));
            print!("{}", documents::picture(&text, &documents::programs(folder)));
            ExitCode::SUCCESS
        }
        Err(error) => {
            eprintln!("picture: {path}: {error}");
            ExitCode::FAILURE
        }
    }
}
