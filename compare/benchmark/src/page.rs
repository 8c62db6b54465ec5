//! The table: on standard output, and as a page.

use std::env;
use std::env::consts::{ARCH, OS};
use std::thread::available_parallelism;

use crate::time::Effort;

/// What was measured of a workload.
#[derive(Debug, Clone)]
pub struct Row {
    /// Its name.
    pub name: &'static str,
    /// What it is.
    pub what: &'static str,
    /// The engine's time over the original's.
    pub time: f64,
    /// The time that is aimed at.
    pub goal: f64,
    /// The engine's instructions over the original's, where they were counted.
    pub instructions: Option<f64>,
    /// The time of a copy of the same bytes over the original's.
    pub memcpy: f64,
    /// The engine's bytes over the original's, where the two send different ones.
    pub bytes: Option<f64>,
}

impl Row {
    /// The workload's line.
    #[must_use]
    pub fn line(&self) -> String {
        let bytes = self.bytes.map_or_else(String::new, |ratio| format!(" {ratio:.2}"));
        format!("{} {:.2} {}{bytes}", self.name, self.time, self.counted())
    }

    fn counted(&self) -> String {
        self.instructions.map_or_else(|| "-".to_string(), |ratio| format!("{ratio:.2}"))
    }

    fn of_page(&self) -> String {
        let bytes = self.bytes.map_or_else(String::new, |ratio| format!(", in {ratio:.2} of the original's bytes"));
        format!("| {} | {:.2} | {:.2} | {} | {:.3} | {}{bytes} |", self.name, self.time, self.goal, self.counted(), self.memcpy, self.what)
    }
}

/// The page. KIT, where it is set, names the kit that built the engine.
#[must_use]
pub fn page(rows: &[Row], effort: Effort) -> String {
    let processors = available_parallelism().map_or(1, usize::from);
    let kit = env::var("KIT").map_or_else(|_| String::new(), |kit| format!(", the engine by {kit}"));
    let repeats = effort.rounds * effort.repeats;
    let table: Vec<String> = rows.iter().map(Row::of_page).collect();
    let met = rows.iter().filter(|row| row.time <= row.goal).count();
    format!(
        "# Speed beside the original Rust

`make benchmark` measures this and writes this page and its picture again. The driver is compare/benchmark; it needs Rust, a C compiler and the
original's sources, and valgrind for the instructions.

![The engine's time over the original's, a bar a workload](benchmark.svg)

Every number is a ratio of ours over the original's, so below 1 the engine is the faster one. Ratios are the measure: the times themselves belong to
one machine on one day. The time's last digit still moves from run to run; instructions stay the same.

- Both sides are built for release, for the plain instruction set of their processor, with every function at the start of a cache line. One driver
  hands the same bytes, made by itself, to the engine's C entry points and to the original's calls; each call of the original is a real call too.
- Every field of every report and answer, and every count, is read on both sides into a checksum. Before anything is timed, both sides are run once
  with every reported and written byte read as well, and the two checksums must be equal.
- Time is the best of {repeats} repeats, with the engine, the original and the copy in turn. Instructions are counted by callgrind in a process of their
  own, less those of a run with no repeats; `-` where they were not counted.
- memcpy is the limit: the time of copying the same bytes in the same pieces.
- The engine's decoder returns at each report and is called again with what is left; the original's takes a whole piece and calls back. A writer
  gets its record ready-made: the engine as plain numbers, which it tests, the original as a value of its own types, which were tested before.
- In running-out the engine leaves out status bytes; the original, which has no such call, writes each message whole, by encode_into or as a clock's
  byte. The bytes differ there, so the two checksums that must be equal are of what the original's decoder reports of them.

Measured on: {ARCH}, {OS}, {processors} processors{kit}. {met} of {} workloads reach their goal.

| workload | time | goal | instructions | memcpy | what it is |
|---|---|---|---|---|---|
{}
",
        rows.len(),
        table.join("\n"),
    )
}
