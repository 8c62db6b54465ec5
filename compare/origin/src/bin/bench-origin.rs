//! The bench over the original Rust: one request a line on standard input, one answer a line on standard output.

use std::process::ExitCode;

use origin::bench::Origin;

fn main() -> ExitCode {
    words::main("bench-origin", &mut Origin::<2354>)
}
