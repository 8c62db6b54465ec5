//! Every file and every name that the documents give is there, and one that is made up is told apart.

use std::collections::BTreeSet;
use std::fs;
use std::path::{Path, PathBuf};

use documents::{blocks, headings, links, slug, Block, Sources};

fn root() -> PathBuf {
    Path::new(env!("CARGO_MANIFEST_DIR")).join("../..")
}

fn text(path: &str) -> String {
    fs::read_to_string(root().join(path)).unwrap_or_else(|error| panic!("{path}: {error}"))
}

/// Every file below a folder, by its path from there.
fn files(folder: &Path, below: &str, all: &mut Vec<String>) {
    let entries = fs::read_dir(folder.join(below)).unwrap_or_else(|error| panic!("{below}: {error}"));
    for entry in entries {
        let entry = entry.expect("an entry");
        let name = entry.file_name().to_string_lossy().into_owned();
        let path = if below.is_empty() { name.clone() } else { format!("{below}/{name}") };
        if entry.file_type().expect("a kind").is_dir() {
            if name != "target" && name != ".git" && name != "out" {
                files(folder, &path, all);
            }
        } else {
            all.push(path);
        }
    }
}

/// The sources, but for the functions' proofs, whose names no document gives.
fn sources() -> Sources {
    let mut sources = Sources::default();
    let mut all = Vec::new();
    files(&root(), "", &mut all);
    for path in all {
        match path.strip_prefix("crates/") {
            Some(below) if (below.ends_with("/Invariants.antt") || below.ends_with("/Answers.antt")) && below.matches('/').count() > 2 => {}
            Some(below) if [".antt", ".rt", ".edit"].iter().any(|end| below.ends_with(end)) => sources.add(below, &text(&path)),
            _ => sources.add_other(&path),
        }
    }
    sources
}

fn missing(sources: &Sources, document: &str) -> Vec<String> {
    blocks(document).iter().flat_map(|block| sources.missing(block)).collect()
}

const DOCUMENTS: [&str; 4] = ["docs/PROOFS.md", "docs/ARCHITECTURE.md", "docs/orders/01.md", "docs/orders/02.md"];

#[test]
fn every_file_and_every_name_is_there() {
    let sources = sources();
    for document in DOCUMENTS {
        let text = text(document);
        assert_eq!(missing(&sources, &text), Vec::<String>::new(), "{document}");
        let quoted: usize = blocks(&text).iter().map(|block| block.quoted().len()).sum();
        assert!(quoted > 50, "little was read in {document}: {quoted}");
    }
}

/// A row of PROOFS.md with one text for another must be seen.
fn altered(sources: &Sources, from: &str, to: &str) {
    let before = text("docs/PROOFS.md");
    assert!(before.contains(from), "'{from}' is not in the document");
    assert_ne!(missing(sources, &before.replacen(from, to, 1)), missing(sources, &before), "'{to}' for '{from}' was not seen");
}

#[test]
fn what_is_made_up_is_seen() {
    let sources = sources();
    for (from, to) in [
        ("`condition_3_of_host`", "`condition_4_of_host`"),
        ("`unpacked_length_of`", "`unpacked_length_off`"),
        ("`Bank::from_byte`", "`Bank::made`"),
        ("`Bank::from_byte`", "`Slot::to_byte`"),
        ("`framing::is_framed`", "`packed::is_framed`"),
        ("`prefix::check`", "`head::check`"),
        ("`dm_pack`", "`dm_parcel`"),
        ("`packed/proofs/Rows.antt`", "`packed_back/proofs/Rows.antt`"),
        ("`packed/proofs/Rows.antt`", "`packed/proofs/Bits.antt`"),
        ("`frame_reader/turns_down_all`", "`frame_reader/turns_up_all`"),
        ("`frame_reader/turns_down_all`", "`frame_writer/turns_down_all`"),
        ("docs/DIFFERENCES.md", "docs/DIFFERENCE.md"),
        ("include/cobnutdrill.h", "include/cobnut.h"),
    ] {
        altered(&sources, from, to);
    }
}

/// A step of a proof is no name of its file, and a name of one file is none of another's.
#[test]
fn only_what_is_declared_is_a_name() {
    let mut sources = Sources::default();
    sources.add(
        "one/proofs/Law.antt",
        "pub law : A → B\nlaw a = go a\n  where\n    go : A → B\n\n-- word : in a comment\nmodule _ (a : A) where\n    pub inner : B\n",
    );
    sources.add("one/specs/Said.antt", "pub record Said (a : A) : Type 0 where\n  pub field : A\n\nabbrev pub said : A → B\n");
    sources.add("one/src/lib.rt", "pub struct Kind(pub u8);\n\nimpl Kind {\n    pub fn new() -> Kind\n{\n}\n}\n\npub fn free() -> u8\n");
    sources.add("one/src/lent.rt", "pub trait Told {\n    fn told(self) -> u8;\n}\n\nimpl<'a> Told for Lent<'a> {\n    fn told(self) -> u8 {\n    }\n}\n\npub static ALL: [u8; 2] = [1, 2];\n");
    let asked = |text: &str| sources.missing(&Block { line: 1, row: false, text: text.to_string() }).is_empty();
    for there in [
        "`law`",
        "`inner`",
        "`Said`",
        "`field`",
        "`said`",
        "`Kind`",
        "`Kind::new`",
        "`new`",
        "`free`",
        "`one::free`",
        "`Told`",
        "`Told::told`",
        "`Lent::told`",
        "`ALL`",
        "`law` `one/proofs/Law.antt`",
        "`free` `one/specs/Said.antt`",
        "`one`",
    ] {
        assert!(asked(there), "{there} was not found");
    }
    for made_up in
        ["`go`", "`word`", "`a`", "`Kind::free`", "`two::free`", "`lib::law`", "`law` `one/specs/Said.antt`", "`one/proofs/Laws.antt`", "`one/edit`"]
    {
        assert!(!asked(made_up), "{made_up} was found");
    }
}

/// A row's files each declare a name of the row.
#[test]
fn a_file_that_says_nothing_of_a_row_is_seen() {
    let mut sources = Sources::default();
    sources.add("one/specs/A.antt", "pub a : A\n");
    sources.add("one/specs/B.antt", "pub b : B\n");
    let row = |text: &str| sources.missing(&Block { line: 1, row: true, text: text.to_string() }).len();
    assert_eq!(row("| claim | `a` | `b` | `one/specs/A.antt`, `one/specs/B.antt` |"), 0);
    assert_eq!(row("| claim | `a` | | `one/specs/A.antt`, `one/specs/B.antt` |"), 1);
}

/// One layout: four cells a row, and no row that cannot be taken in.
fn misshapen(document: &str) -> Vec<String> {
    let heads = document.lines().filter(|line| line.starts_with("|--")).count();
    let whole = document.matches("| claim | definition | contract or theorem | file |\n|---|---|---|---|\n").count();
    let mut found = Vec::new();
    if heads != whole {
        found.push(format!("{heads} tables, {whole} of the one layout"));
    }
    for block in blocks(document).iter().filter(|block| block.row) {
        if block.cells().len() != 4 {
            found.push(format!("line {}: {} cells", block.line, block.cells().len()));
        }
        if block.text.chars().count() > 250 {
            found.push(format!("line {}: {} characters", block.line, block.text.chars().count()));
        }
    }
    found
}

#[test]
fn the_tables_have_one_layout() {
    let document = text("docs/PROOFS.md");
    assert_eq!(misshapen(&document), Vec::<String>::new());
    assert!(blocks(&document).iter().filter(|block| block.row).count() > 100, "few rows were read");
    let long = format!("| claim | definition | contract or theorem | file |\n|---|---|---|---|\n| a | b | c | {} |\n", "d".repeat(250));
    for wrong in
        ["| claim | how |\n|---|---|\n| a | b |\n", "| claim | definition | contract or theorem | file |\n|---|---|---|---|\n| a | b | c |\n", &long]
    {
        assert_ne!(misshapen(wrong), Vec::<String>::new(), "{wrong}");
    }
}

/// Where a document's links lead nowhere: to no heading of its own, and to no file beside it.
fn astray(path: &str, document: &str) -> Vec<String> {
    let own: BTreeSet<String> = (2..=3).flat_map(|level| headings(document, level)).map(slug).collect();
    let folder = root().join(path).parent().expect("a folder").to_path_buf();
    let leads = |to: &str| match to.strip_prefix('#') {
        Some(heading) => own.contains(heading),
        None => to.starts_with("https://") || folder.join(to).exists(),
    };
    links(document).into_iter().filter(|to| !leads(to)).map(str::to_string).collect()
}

#[test]
fn the_links_lead_somewhere() {
    for path in ["docs/PROOFS.md", "docs/ARCHITECTURE.md", "README.md"] {
        assert_eq!(astray(path, &text(path)), Vec::<String>::new(), "{path}");
    }
    assert_eq!(astray("docs/PROOFS.md", "[a](#a-heading) [b](B.md) [c](PROOFS.md)\n## A heading\n"), ["B.md"]);
    assert_eq!(astray("docs/PROOFS.md", "[a](#another)\n## A heading\n"), ["#another"]);
}

/// The contents name every heading.
#[test]
fn the_contents_are_whole() {
    let document = text("docs/PROOFS.md");
    let linked: BTreeSet<&str> = links(&document).into_iter().filter_map(|to| to.strip_prefix('#')).collect();
    for heading in headings(&document, 2).into_iter().filter(|heading| *heading != "Contents") {
        assert!(linked.contains(slug(heading).as_str()), "'{heading}' is not in the contents");
    }
}

/// The walks of docs/ARCHITECTURE.md go as the code does.
#[test]
fn the_walks_follow_the_calls() {
    let (sources, document) = (sources(), text("docs/ARCHITECTURE.md"));
    let astray = |text: &str| sources.astray(&blocks(text));
    assert_eq!(astray(&document), Vec::<String>::new());
    assert!(blocks(&document).iter().filter(|block| block.step().is_some()).count() > 30, "few steps were read");
    for (from, to) in [
        ("`read_header` in", "`run_of` in"),
        ("`moved` in", "`broken` in"),
        ("`stream::feed` in", "`STATE_LEN` in"),
        ("`Parts::put` in", "`encode_into` in"),
    ] {
        assert!(document.contains(from), "'{from}' is not in the document");
        assert_ne!(astray(&document.replacen(from, to, 1)), Vec::<String>::new(), "'{to}' for '{from}' was not seen");
    }
}

/// Every word of a text that begins with one of the repository's folders and leads nowhere.
fn lost(text: &str) -> Vec<String> {
    let words = text.split(|c: char| c.is_whitespace() || "(),;:`".contains(c)).map(|word| word.trim_end_matches('.'));
    let ours = words.filter(|word| ["crates/", "docs/", "include/", "examples/", "compare/", ".ci/"].iter().any(|folder| word.starts_with(folder)));
    ours.filter(|word| !word.contains('*') && !root().join(word).exists()).map(str::to_string).collect()
}

#[test]
fn the_paths_of_the_readme_are_there() {
    let readme = text("README.md");
    assert_eq!(lost(&readme), Vec::<String>::new());
    assert!(readme.matches("crates/").count() > 20, "few paths were read");
    assert_eq!(lost("`row-e` in crates/packed_back/proofs/Rows.antt, crates/packed/specs/Packed.antt."), ["crates/packed_back/proofs/Rows.antt"]);
}

/// Every crate of crates.txt is said to be something, in both lists.
#[test]
fn every_crate_is_named() {
    let all = text("crates.txt");
    let crates: Vec<&str> = all
        .lines()
        .filter(|line| !line.starts_with('#'))
        .filter_map(|line| line.split_once(':'))
        .filter_map(|(name, _)| name.split_whitespace().next())
        .collect();
    assert!(crates.len() > 20, "few crates were read");
    let (architecture, readme) = (text("docs/ARCHITECTURE.md"), text("README.md"));
    for name in crates {
        assert!(architecture.contains(&format!("`{name}`")), "{name} is not in docs/ARCHITECTURE.md");
        assert!(readme.split(|c: char| !c.is_alphanumeric() && c != '_').any(|word| word == name), "{name} is not in README.md");
    }
}
