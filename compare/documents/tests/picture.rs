//! The picture in docs/ is the one that crates.txt gives.

use std::collections::BTreeSet;
use std::fs;
use std::path::{Path, PathBuf};

use documents::{picture, programs};

fn root() -> PathBuf {
    Path::new(env!("CARGO_MANIFEST_DIR")).join("../..")
}

fn text(path: &str) -> String {
    fs::read_to_string(root().join(path)).unwrap_or_else(|error| panic!("{path}: {error}"))
}

#[test]
fn the_picture_is_current() {
    let programs = programs(&root());
    assert_eq!(programs.iter().map(String::as_str).collect::<Vec<_>>(), ["monitor", "replay"]);
    assert!(picture(&text("crates.txt"), &programs) == text("docs/crates.svg"), "docs/crates.svg is another picture: make picture");
}

#[test]
fn another_list_is_another_picture() {
    let (crates, programs) = (text("crates.txt"), programs(&root()));
    for (from, to) in [("host_wire:", "host_wires:"), ("ids: refusal laws", "ids: octets laws"), (" staticlib:", ":")] {
        assert!(crates.contains(from), "'{from}' is not in crates.txt");
        assert!(picture(&crates.replacen(from, to, 1), &programs) != picture(&crates, &programs), "'{to}' for '{from}' makes no difference");
    }
    assert!(picture(&crates, &BTreeSet::new()) != picture(&crates, &programs), "that a crate is a program makes no difference");
}

/// What is between `mark` and the next `"`, in every line that has it.
fn numbers(svg: &str, mark: &str) -> Vec<f64> {
    svg.lines().filter(|line| line.contains("rx=")).filter_map(|line| line.split_once(mark)?.1.split_once('"')?.0.parse().ok()).collect()
}

/// Every crate has a box, boxes of a layer lie apart, and all lie within the picture.
#[test]
fn the_boxes_lie_apart() {
    let crates = text("crates.txt");
    let svg = picture(&crates, &programs(&root()));
    let (x, y, wide) = (numbers(&svg, " x=\""), numbers(&svg, " y=\""), numbers(&svg, " width=\""));
    let names = crates
        .lines()
        .filter(|line| !line.starts_with('#'))
        .filter_map(|line| line.split_once(':'))
        .filter_map(|(name, _)| name.split_whitespace().next());
    let mut count = 0;
    for name in names {
        assert!(svg.contains(&format!(">{name}</text>")), "{name} has no box");
        count += 1;
    }
    assert!(x.len() == y.len() && x.len() == wide.len() && x.len() > count, "not every box was read");
    for one in 0..x.len() {
        assert!(x[one] >= 0.0 && x[one] + wide[one] <= 1100.0, "a box leaves the picture at {} {}", x[one], y[one]);
        for other in (one + 1..x.len()).filter(|other| (y[*other] - y[one]).abs() < 28.0) {
            assert!(x[one] + wide[one] < x[other] || x[other] + wide[other] < x[one], "two boxes meet at {} {}", x[one], y[one]);
        }
    }
}

/// A line for what is needed, and none for what another line implies.
#[test]
fn lines_are_not_implied() {
    let lines = |crates: &str| picture(crates, &BTreeSet::new()).matches("<path").count();
    assert_eq!(lines("a:\nb: a\nc: b a\n"), 2);
    assert_eq!(lines("a:\nb: a\nc: a\n"), 2);
    assert_eq!(lines("a:\nb: a\nc: a\nd: b c a io\n"), 4);
}
