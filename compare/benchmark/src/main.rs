//! The benchmark's program.

use std::io::{self, Write};
use std::path::Path;
use std::process::ExitCode;
use std::{env, fs};

use benchmark::page::{page, Row};
use benchmark::time::{times, Effort};
use benchmark::{bytes, chart::chart, count, run, workloads, Side, Workload};

const USAGE: &str = "usage: benchmark [--quick] [FOLDER]
       benchmark [--quick] --only NAME,NAME...
       benchmark --run SIDE NAME COUNT
  times the engine and the original Rust on the same inputs, which it makes itself, in some minutes, and prints a line a workload:
  its name, the engine's time over the original's, and the engine's instructions over the original's (- where valgrind is missing);
  where the two send different bytes, also the engine's bytes over the original's
  FOLDER    a folder, in which it also writes BENCHMARK.md and benchmark.svg
  --quick   few repeats and no instructions: some seconds, and rough times
  --only    these workloads alone, in the table's order
  --run     goes over the workload NAME COUNT times on one side (engine, original or memcpy) and prints the checksum: this is
            what callgrind counts";

fn main() -> ExitCode {
    let words: Vec<String> = env::args().skip(1).collect();
    let words: Vec<&str> = words.iter().map(String::as_str).collect();
    let (effort, counting, rest) = match &words[..] {
        ["--quick", rest @ ..] => (Effort::QUICK, false, rest),
        rest => (Effort::WHOLE, true, rest),
    };
    let done = match (&words[..], rest) {
        (["--run", side, name, count], _) => run_one(side, name, count),
        (_, []) => measure(&workloads(), effort, counting, None),
        (_, ["--only", names]) => only(names).and_then(|some| measure(&some, effort, counting, None)),
        (_, [folder]) if !folder.starts_with('-') => measure(&workloads(), effort, counting, Some(folder)),
        _ => Err(USAGE.to_string()),
    };
    match done {
        Ok(()) => ExitCode::SUCCESS,
        Err(why) => {
            eprintln!("{why}");
            ExitCode::from(if why.ends_with(USAGE) { 2 } else { 1 })
        }
    }
}

/// Goes over one workload on one side.
fn run_one(side: &str, name: &str, count: &str) -> Result<(), String> {
    let side = Side::from_word(side).ok_or_else(|| format!("benchmark: '{side}' is no side\n{USAGE}"))?;
    let passes = count.parse().map_err(|_| format!("benchmark: '{count}' is no count\n{USAGE}"))?;
    let all = workloads();
    let work = all.iter().find(|work| work.name == name).ok_or_else(|| format!("benchmark: '{name}' is no workload\n{USAGE}"))?;
    say(&run::<false>(work, side, passes).sink.text())
}

/// The workloads of these names, with commas between them.
fn only(names: &str) -> Result<Vec<Workload>, String> {
    let all = workloads();
    let wrong = names.split(',').find(|name| all.iter().all(|work| work.name != *name));
    if let Some(name) = wrong {
        let known: Vec<&str> = all.iter().map(|work| work.name).collect();
        return Err(format!("benchmark: '{name}' is no workload; there are {}\n{USAGE}", known.join(", ")));
    }
    Ok(all.into_iter().filter(|work| names.split(',').any(|name| name == work.name)).collect())
}

/// Measures workloads, prints the table, and writes it where a folder is named.
fn measure(all: &[Workload], effort: Effort, counting: bool, folder: Option<&str>) -> Result<(), String> {
    if let Some(folder) = folder.filter(|folder| !Path::new(folder).is_dir()) {
        return Err(format!("benchmark: {folder} is no folder\n{USAGE}"));
    }
    all.iter().try_for_each(alike)?;
    let counting = counting && (count::can_count() || missing());
    let program = env::current_exe().map_err(|error| format!("benchmark: the program's own place: {error}"))?;
    let times = times(all, effort);
    let mut rows = Vec::new();
    for (work, times) in all.iter().zip(times) {
        let instructions = if counting { Some(count::ratio(&program, work).map_err(|why| format!("benchmark: {why}"))?) } else { None };
        let row =
            Row { name: work.name, what: work.what, time: times.ratio(), goal: work.goal, instructions, memcpy: times.limit(), bytes: bytes(work) };
        say(&row.line())?;
        rows.push(row);
    }
    let Some(folder) = folder else {
        return Ok(());
    };
    for (name, text) in [("BENCHMARK.md", page(&rows, effort)), ("benchmark.svg", chart(&rows))] {
        let file = Path::new(folder).join(name);
        fs::write(&file, text).map_err(|error| format!("benchmark: {}: {error}", file.display()))?;
    }
    Ok(())
}

/// Do both sides say and write the same?
fn alike(work: &Workload) -> Result<(), String> {
    let [engine, original] = [Side::Engine, Side::Original].map(|side| run::<true>(work, side, 1).sink);
    if engine == original {
        return Ok(());
    }
    Err(format!("benchmark: {}: the engine's checksum is {}, and the original's {}", work.name, engine.text(), original.text()))
}

fn say(line: &str) -> Result<(), String> {
    writeln!(io::stdout(), "{line}").map_err(|error| format!("benchmark: standard output: {error}"))
}

fn missing() -> bool {
    eprintln!("benchmark: SKIPPED, since valgrind is missing: instructions");
    false
}
