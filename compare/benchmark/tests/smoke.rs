//! Every workload once on both sides, and what the program says to its words. Nothing here looks at a time.

use std::path::Path;
use std::process::{Command, Output};

use benchmark::chart::chart;
use benchmark::count;
use benchmark::page::{page, Row};
use benchmark::time::{times, Effort};
use benchmark::{bytes, run, workloads, Call, Side};

const NAMES: [&str; 32] = [
    "notes",
    "notes-running",
    "dump-289",
    "dump-2354",
    "clocked-289",
    "clocked-2354",
    "pieces-64",
    "pieces-1",
    "frames-8",
    "clocks",
    "random",
    "stray",
    "timecode",
    "timecode-2",
    "position",
    "notes-1",
    "running-1",
    "controls-clocked",
    "notes-timecode",
    "pack-16",
    "pack-245",
    "pack-2048",
    "unpack-16",
    "unpack-245",
    "unpack-2048",
    "read-8",
    "read-291",
    "read-2354",
    "write-8",
    "write-291",
    "write-2354",
    "running-out",
];

#[test]
fn the_workloads_are_all_there_in_order() {
    let names: Vec<&str> = workloads().iter().map(|work| work.name).collect();
    assert_eq!(names, NAMES);
}

#[test]
fn both_sides_read_and_write_the_same() {
    for work in workloads() {
        assert_eq!(work.bytes.len() % work.piece, if work.name == "pieces-64" { 58 } else { 0 }, "{}", work.name);
        for passes in [1, 2] {
            let [engine, original] = [Side::Engine, Side::Original].map(|side| run::<true>(&work, side, passes).sink);
            assert_eq!(engine, original, "{}, {passes} passes", work.name);
            if work.call == Call::Send {
                continue; // the counts differ by what the engine leaves out
            }
            let [engine, original] = [Side::Engine, Side::Original].map(|side| run::<false>(&work, side, passes).sink);
            assert_eq!(engine, original, "{}, {passes} passes, fields and counts alone", work.name);
        }
    }
}

/// By MIDI 1.0's rule, counted again here. Each pass starts with no running status.
#[test]
fn running_out_leaves_out_the_status_bytes_that_may_be_left_out() {
    let all = workloads();
    let work = all.iter().find(|work| work.name == "running-out").expect("a workload");
    let (mut whole, mut left_out, mut status) = (0, 0, 0);
    for message in work.bytes.chunks(work.piece) {
        whole += match message[0] {
            0xC0..=0xDF => 2,
            0xF8 => 1,
            _ => 3,
        };
        if message[0] < 0xF0 {
            left_out += u64::from(message[0] == status);
            status = message[0];
        }
    }
    for passes in [1, 2] {
        let [engine, original] = [Side::Engine, Side::Original].map(|side| run::<false>(work, side, passes).sink.total());
        assert_eq!((engine, original), (passes as u64 * (whole - left_out), passes as u64 * whole));
    }
    assert_eq!(bytes(work), Some((whole - left_out) as f64 / whole as f64));
}

#[test]
fn another_byte_is_another_checksum() {
    for mut work in workloads().into_iter().filter(|work| work.name != "stray") {
        let before = run::<true>(&work, Side::Engine, 1).sink;
        let at = work.bytes.len() - 3;
        work.bytes[at] = if work.name == "clocks" { 0xFA } else { work.bytes[at] ^ 1 };
        assert_ne!(before, run::<true>(&work, Side::Engine, 1).sink, "{}", work.name);
    }
}

#[test]
fn every_byte_of_a_stage_stream_is_read_on_both_sides() {
    let stage = NAMES.iter().skip_while(|name| **name != "timecode").take_while(|name| **name != "pack-16");
    let stage: Vec<&str> = stage.copied().chain(["notes", "notes-running"]).collect();
    let sides = [Side::Engine, Side::Original];
    for mut work in workloads().into_iter().filter(|work| stage.contains(&work.name)) {
        let before = sides.map(|side| run::<false>(&work, side, 1).sink);
        for back in 1..=8 {
            let at = work.bytes.len() - back;
            work.bytes[at] ^= 1;
            let [engine, original] = sides.map(|side| run::<false>(&work, side, 1).sink);
            assert_eq!(engine, original, "{}, another byte {at}", work.name);
            assert!(before.iter().all(|sink| *sink != engine), "{}, another byte {at}", work.name);
            work.bytes[at] ^= 1;
        }
    }
}

#[test]
fn the_table_has_a_line_a_bar_and_a_goal_for_each() {
    let all = workloads();
    let effort = Effort { rounds: 1, repeats: 1, least: std::time::Duration::ZERO };
    let rows: Vec<Row> = all
        .iter()
        .zip(times(&all, effort))
        .map(|(work, times)| Row {
            name: work.name,
            what: work.what,
            time: times.ratio(),
            goal: work.goal,
            instructions: None,
            memcpy: times.limit(),
            bytes: bytes(work),
        })
        .collect();
    assert_eq!(rows[0].line().split(' ').count(), 3);
    assert!(rows[0].line().starts_with("notes ") && rows[0].line().ends_with(" -"));
    assert!(rows[NAMES.len() - 1].line().contains(" - 0.7"));
    assert_eq!(page(&rows, effort).matches(" of the original's bytes |").count(), 1);
    assert_eq!(page(&rows, effort).lines().filter(|line| NAMES.iter().any(|name| line.starts_with(&format!("| {name} | ")))).count(), NAMES.len());
    assert_eq!(chart(&rows).matches("class=\"bar\"").count(), NAMES.len());
    assert_eq!(chart(&rows).matches("class=\"goal\"").count(), NAMES.len());
}

const PROGRAM: &str = env!("CARGO_BIN_EXE_benchmark");

fn said(words: &[&str]) -> Output {
    Command::new(PROGRAM).args(words).output().expect("the program runs")
}

#[test]
fn one_side_of_one_workload_is_run() {
    let [engine, original, none] =
        [["engine", "random", "2"], ["original", "random", "2"], ["original", "random", "0"]].map(|words| said(&[&["--run"], &words[..]].concat()));
    assert!(engine.status.success());
    assert_eq!(engine.stdout, original.stdout);
    assert_ne!(engine.stdout, none.stdout);
}

#[test]
fn named_workloads_alone_are_measured() {
    for names in ["clocks,notes", "notes,clocks", "notes,clocks,notes"] {
        let said = said(&["--quick", "--only", names]);
        let lines = String::from_utf8_lossy(&said.stdout).into_owned();
        let lines: Vec<&str> = lines.lines().collect();
        assert!(said.status.success());
        assert!(lines.len() == 2 && lines[0].starts_with("notes ") && lines[1].starts_with("clocks "), "{lines:?}");
    }
}

#[test]
fn wrong_words_are_told_how_it_is_used() {
    for words in [
        &["--what"][..],
        &["--only"],
        &["--only", "x"],
        &["--only", "notes,x"],
        &["--only", ""],
        &["--only", "notes", "clocks"],
        &["--quick", "--only"],
        &["--quick", "--run", "engine", "notes", "1"],
        &["a", "b"],
        &["--run"],
        &["--run", "nobody", "notes", "1"],
        &["--run", "engine", "x", "1"],
        &["--run", "engine", "notes", "x"],
    ] {
        let said = said(words);
        assert_eq!(said.status.code(), Some(2), "{words:?}");
        assert!(said.stdout.is_empty() && String::from_utf8_lossy(&said.stderr).contains("usage: benchmark"), "{words:?}");
    }
    let said = said(&["no/such/folder"]);
    assert_eq!(said.status.code(), Some(2));
    assert!(String::from_utf8_lossy(&said.stderr).contains("is no folder"));
}

#[test]
fn a_count_of_instructions_comes_again() {
    if !count::can_count() {
        eprintln!("SKIPPED, since valgrind is missing: the count of instructions");
        return;
    }
    let all = workloads();
    let clocks = all.iter().find(|work| work.name == "clocks").expect("a workload");
    let [once, again, none] = [1, 1, 0].map(|passes| count::counted(Path::new(PROGRAM), clocks, Side::Engine, passes).expect("a count"));
    assert_eq!(once, again);
    assert!(once > none);
}
