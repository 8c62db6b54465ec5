//! The header says what the engine and the Rust wrapper say, and a drift of either is seen.

use std::fs;
use std::path::{Path, PathBuf};

use header::{drift, engine, header, wrapper, Side};

fn root() -> PathBuf {
    Path::new(env!("CARGO_MANIFEST_DIR")).join("../..")
}

fn text(path: &str) -> String {
    fs::read_to_string(root().join(path)).unwrap_or_else(|error| panic!("{path}: {error}"))
}

/// Every source of every crate, with the crate's name; behind it `::` and the file's, where that is not the crate's root.
fn sources() -> Vec<(String, String)> {
    let mut all = Vec::new();
    let mut crates: Vec<PathBuf> = fs::read_dir(root().join("crates")).expect("crates").map(|entry| entry.expect("a crate").path()).collect();
    crates.sort();
    for folder in crates {
        let name = folder.file_name().expect("a name").to_string_lossy().into_owned();
        let Ok(files) = fs::read_dir(folder.join("src")) else { continue };
        for file in files {
            let path = file.expect("a source").path();
            let module = path.file_stem().expect("a name").to_string_lossy().into_owned();
            let name = if module == "lib" { name.clone() } else { format!("{name}::{module}") };
            all.push((name, fs::read_to_string(&path).expect("a source")));
        }
    }
    all
}

#[test]
fn the_header_and_the_engine_agree() {
    let (header, engine) = (header(&text("include/cobnutdrill.h")), engine(&sources()));
    assert_eq!(drift(&header, &engine), Vec::<String>::new());
    for name in ["MAX_SYSEX_LEN", "REQUEST_LEN", "REPLY_LEN"] {
        assert_eq!(header.constants.get(name), engine.others.get(name), "{name} of another crate");
    }
    assert!(header.calls.len() > 30 && header.records.len() > 5 && header.constants.len() > 30, "little was read: {header:?}");
}

/// The wrapper has the same calls and records, and those constants that it has are the header's.
#[test]
fn the_header_and_the_wrapper_agree() {
    let (header, wrapper) = (header(&text("include/cobnutdrill.h")), wrapper(&text("compare/engine/src/ffi.rs")));
    let constants = header.constants.clone().into_iter().filter(|(name, _)| wrapper.constants.contains_key(name)).collect();
    assert_eq!(drift(&Side { constants, ..header }, &wrapper), Vec::<String>::new());
}

/// Alters the header's text, which must then differ from the engine as it did not before.
fn header_altered(from: &str, to: &str) {
    let (before, engine) = (text("include/cobnutdrill.h"), engine(&sources()));
    assert!(before.contains(from), "'{from}' is not in the header");
    let found = drift(&header(&before.replacen(from, to, 1)), &engine);
    assert_ne!(found, drift(&header(&before), &engine), "'{to}' for '{from}' in the header was not seen");
}

/// Alters the source that has this text, which must then differ from the header as it did not before.
fn engine_altered(from: &str, to: &str) {
    let (header, mut sources) = (header(&text("include/cobnutdrill.h")), sources());
    let before = drift(&header, &engine(&sources));
    let source = sources.iter_mut().find(|(_, text)| text.contains(from)).unwrap_or_else(|| panic!("'{from}' is in no source"));
    source.1 = source.1.replacen(from, to, 1);
    assert_ne!(drift(&header, &engine(&sources)), before, "'{to}' for '{from}' in the engine was not seen");
}

#[test]
fn a_drift_of_the_header_is_seen() {
    for (from, to) in [
        ("dm_answer dm_bank(uint8_t byte);", ""),
        ("dm_answer dm_bank(uint8_t byte);", "dm_answer dm_bank(uint8_t byte);\ndm_answer dm_more(uint8_t byte);"),
        ("dm_bank(uint8_t byte)", "dm_bank(uint16_t byte)"),
        ("dm_bank(uint8_t byte)", "dm_bank(uint8_t bank)"),
        ("uint64_t dm_capacity(void)", "size_t dm_capacity(void)"),
        ("uint8_t nibble, uint8_t channel, uint16_t a", "uint8_t channel, uint8_t nibble, uint16_t a"),
        ("const uint8_t *raw, size_t raw_len", "uint8_t *raw, size_t raw_len"),
        ("uint8_t *state, size_t state_len, uint8_t *store", "const uint8_t *state, size_t state_len, uint8_t *store"),
        ("const uint8_t *bytes, size_t bytes_len", "size_t bytes_len, const uint8_t *bytes"),
        ("dm_request_answer dm_request_read", "dm_reply_answer dm_request_read"),
        ("uint64_t used;\n    uint64_t interrupted;", "uint64_t interrupted;\n    uint64_t used;"),
        ("uint64_t detail3;\n", ""),
        ("#define DM_STATE_LEN 14", "#define DM_STATE_LEN 15"),
        ("#define DM_RUNNING_LEN 2\n", "\n"),
        ("uint8_t *state, size_t state_len, const uint8_t *frame, size_t", "const uint8_t *frame, size_t frame_len, uint8_t *state, size_t"),
        ("#define DM_MAX_SYSEX_LEN 2354", "#define DM_MAX_SYSEX_LEN 2353"),
        ("#define DM_FOREIGN 4", "#define DM_FOREIGN 5"),
        ("#define DM_NO_RECORD 255", "#define DM_NO_RECORD 254"),
        ("#define DM_REALTIME 4", ""),
        ("#define DM_REALTIME 4", "#define DM_REALTIME 4\n#define DM_MADE_UP 4"),
    ] {
        header_altered(from, to);
    }
}

#[test]
fn a_drift_of_the_engine_is_seen() {
    for (from, to) in [
        ("#[unsafe(no_mangle)]\npub extern \"C\" fn dm_bank(", "pub fn dm_bank("),
        ("fn dm_bank(byte: u8)", "fn dm_bank(byte: u16)"),
        ("fn dm_bank(byte: u8)", "fn dm_banks(byte: u8)"),
        ("fn dm_pack(raw: &[u8], out: &mut [u8])", "fn dm_pack(out: &mut [u8], raw: &[u8])"),
        ("fn dm_pack(raw: &[u8], out: &mut [u8])", "fn dm_pack(raw: &mut [u8], out: &mut [u8])"),
        ("fn dm_unpacked_len(n: usize)", "fn dm_unpacked_len(n: u64)"),
        ("fn dm_capacity() -> u64", "fn dm_capacity() -> usize"),
        ("fn dm_in_sysex(state: &[u8]) -> Answer", "fn dm_in_sysex(state: &[u8]) -> FedAnswer"),
        ("    pub number: u64,\n    pub value: u64,", "    pub value: u64,\n    pub number: u64,"),
        ("    pub used: u64,\n", ""),
        ("pub const STATE_LEN: usize = 14;", "pub const STATE_LEN: usize = 16;"),
        ("pub const RUNNING_LEN: usize = 2;", "pub const RUNNING_LEN: usize = 3;"),
        ("pub const MAX_SYSEX_LEN: usize = 2354;", "pub const MAX_SYSEX_LEN: usize = 2_360;"),
        ("pub const NO_RECORD: u64 = 255;", "pub const NO_RECORD: u64 = 0xFE;"),
        ("Refusal::BadStore => 20,", "Refusal::BadStore => 23,"),
        ("Refusal::LengthOverflow => 22,", "Refusal::LengthOverflow => 22,\n            Refusal::MadeUp => 23,"),
    ] {
        engine_altered(from, to);
    }
}
