//! The bench over the engine: one request a line on standard input, one answer a line on standard output.

use std::process::ExitCode;

use engine::bench::Engine;

fn main() -> ExitCode {
    words::main("bench", &mut Engine::new())
}
