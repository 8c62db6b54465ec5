//! Instructions, counted by callgrind over the benchmark's program in a process of its own.

use std::path::Path;
use std::process::Command;

use crate::{Side, Workload};

/// Passes that are counted.
const PASSES: usize = 16;

/// The engine's instructions over the original's, counted over this program.
///
/// # Errors
///
/// Why they could not be counted.
pub fn ratio(program: &Path, work: &Workload) -> Result<f64, String> {
    let of = |side| -> Result<f64, String> {
        let (with, without) = (counted(program, work, side, PASSES)?, counted(program, work, side, 0)?);
        let passes = with.checked_sub(without).filter(|passes| *passes > 0);
        passes.map(|passes| passes as f64).ok_or_else(|| format!("{}: {with} instructions, and {without} for none", work.name))
    };
    Ok(of(Side::Engine)? / of(Side::Original)?)
}

/// The instructions of the program where it goes over a workload so many times.
///
/// # Errors
///
/// Why they could not be counted.
pub fn counted(program: &Path, work: &Workload, side: Side, passes: usize) -> Result<u64, String> {
    let ran = Command::new("valgrind")
        .args(["--tool=callgrind", "--callgrind-out-file=/dev/null"])
        .arg(program)
        .args(["--run", side.word(), work.name, &passes.to_string()])
        .output()
        .map_err(|error| format!("valgrind: {error}"))?;
    let said = String::from_utf8_lossy(&ran.stderr);
    let found = said.lines().find_map(|line| line.split_once("Collected :")).and_then(|(_, number)| number.trim().parse().ok());
    found.filter(|_| ran.status.success()).ok_or_else(|| format!("callgrind counted nothing; it said:\n{said}"))
}

/// Is valgrind there?
#[must_use]
pub fn can_count() -> bool {
    Command::new("valgrind").arg("--version").output().is_ok_and(|said| said.status.success())
}
