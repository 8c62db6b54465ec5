//! The picture of the crates: a box for each, in layers, with a line to every crate that it needs and that no other line implies.

use std::collections::{BTreeMap, BTreeSet};
use std::fmt::Write;
use std::fs;
use std::path::Path;

const WIDTH: f64 = 1100.0;
const MARGIN: f64 = 16.0;
const BOX: f64 = 28.0;
const LAYER: f64 = 84.0;
const LETTER: f64 = 7.6;
/// Between two boxes of a layer, and between a line and what stands beside it.
const GAP: f64 = 12.0;
const SWEEPS: usize = 60;

/// Each crate of crates.txt with the crates that it names; the kit's own, which have no line there, are left out. What C calls: a crate host_NAME,
/// and the static library, which its line says.
struct Crates {
    needs: BTreeMap<String, BTreeSet<String>>,
    programs: BTreeSet<String>,
    exports: BTreeSet<String>,
}

fn read(text: &str, programs: &BTreeSet<String>) -> Crates {
    let lines = || text.lines().filter(|line| !line.starts_with('#')).filter_map(|line| line.split_once(':'));
    let first = |words: &str| words.split_whitespace().next().unwrap_or_default().to_string();
    let all: BTreeMap<String, BTreeSet<String>> =
        lines().map(|(name, needs)| (first(name), needs.split_whitespace().map(str::to_string).collect())).collect();
    let exports = lines().map(|(name, _)| name).filter(|name| name.starts_with("host_") || name.ends_with(" staticlib")).map(first).collect();
    let programs = programs.intersection(&all.keys().cloned().collect()).cloned().collect();
    let known: BTreeSet<String> = all.keys().cloned().collect();
    let needs = all.into_iter().map(|(name, needs)| (name, needs.intersection(&known).cloned().collect())).collect();
    Crates { needs, programs, exports }
}

impl Crates {
    /// One more than the highest of those that it needs.
    fn level(&self, name: &str) -> usize {
        self.needs[name].iter().map(|below| self.level(below) + 1).max().unwrap_or(0)
    }

    fn reaches(&self, from: &str, to: &str) -> bool {
        self.needs[from].iter().any(|below| below == to || self.reaches(below, to))
    }

    /// Those that it needs and that no other of them needs.
    fn direct<'a>(&'a self, name: &'a str) -> impl Iterator<Item = &'a String> {
        let needs = &self.needs[name];
        needs.iter().filter(move |below| !needs.iter().any(|other| other != *below && self.reaches(other, below)))
    }
}

/// A crate's box, or the place where a line goes through a layer.
struct Place {
    name: Option<String>,
    level: usize,
    half: f64,
    x: f64,
    above: Vec<usize>,
    below: Vec<usize>,
}

/// The boxes and the lines' places, and each line as the places that it goes through, from the upper box down.
struct Drawing {
    places: Vec<Place>,
    layers: Vec<Vec<usize>>,
    lines: Vec<Vec<usize>>,
}

fn drawing(crates: &Crates) -> Drawing {
    let mut drawing = Drawing { places: Vec::new(), layers: Vec::new(), lines: Vec::new() };
    let mut boxes = BTreeMap::new();
    for name in crates.needs.keys() {
        let half = (LETTER * f64::from(u32::try_from(name.len()).expect("a short name")) + 18.0) / 2.0;
        boxes.insert(name.as_str(), drawing.put(Some(name.clone()), crates.level(name), half));
    }
    for name in crates.needs.keys() {
        for below in crates.direct(name) {
            let (from, to) = (boxes[name.as_str()], boxes[below.as_str()]);
            let mut line = vec![from];
            for level in (drawing.places[to].level + 1..drawing.places[from].level).rev() {
                line.push(drawing.put(None, level, 1.0));
            }
            line.push(to);
            for pair in line.windows(2) {
                drawing.places[pair[0]].below.push(pair[1]);
                drawing.places[pair[1]].above.push(pair[0]);
            }
            drawing.lines.push(line);
        }
    }
    drawing.order();
    drawing.settle();
    drawing
}

impl Drawing {
    fn put(&mut self, name: Option<String>, level: usize, half: f64) -> usize {
        let at = self.places.len();
        self.places.push(Place { name, level, half, x: 0.0, above: Vec::new(), below: Vec::new() });
        if self.layers.len() <= level {
            self.layers.resize(level + 1, Vec::new());
        }
        self.layers[level].push(at);
        at
    }

    /// How many pairs of lines cross between neighbouring layers.
    fn crossings(&self) -> usize {
        let mut rank = vec![0; self.places.len()];
        for layer in &self.layers {
            for (at, place) in layer.iter().enumerate() {
                rank[*place] = at;
            }
        }
        let mut count = 0;
        for layer in &self.layers {
            let edges: Vec<(usize, usize)> =
                layer.iter().flat_map(|upper| self.places[*upper].below.iter().map(|lower| (rank[*upper], rank[*lower]))).collect();
            for (at, one) in edges.iter().enumerate() {
                count += edges[at + 1..].iter().filter(|other| (one.0 < other.0 && one.1 > other.1) || (one.0 > other.0 && one.1 < other.1)).count();
            }
        }
        count
    }

    /// Orders each layer by the middle of its neighbours, up and down, and then by exchanging two of a layer; keeps the order with the fewest crossings.
    fn order(&mut self) {
        let mut best = (self.crossings(), self.layers.clone());
        for sweep in 0..SWEEPS {
            let down = sweep % 2 == 0;
            let mut rank = vec![0.0; self.places.len()];
            let levels: Vec<usize> = if down { (0..self.layers.len()).rev().collect() } else { (0..self.layers.len()).collect() };
            for level in levels {
                let mut layer = std::mem::take(&mut self.layers[level]);
                let middle = |place: &usize, own: f64| {
                    let beside = if down { &self.places[*place].above } else { &self.places[*place].below };
                    let count = f64::from(u32::try_from(beside.len()).expect("few lines"));
                    if beside.is_empty() {
                        own
                    } else {
                        beside.iter().map(|other| rank[*other]).sum::<f64>() / count
                    }
                };
                let parts = f64::from(u32::try_from(layer.len()).expect("few places"));
                let keys: BTreeMap<usize, f64> = layer.iter().zip(0u32..).map(|(place, at)| (*place, middle(place, f64::from(at) / parts))).collect();
                layer.sort_by(|one, other| keys[one].total_cmp(&keys[other]));
                for (place, at) in layer.iter().zip(0u32..) {
                    rank[*place] = f64::from(at) / parts;
                }
                self.layers[level] = layer;
            }
            let crossings = self.crossings();
            if crossings < best.0 {
                best = (crossings, self.layers.clone());
            }
        }
        self.layers = best.1;
        let mut count = best.0;
        loop {
            let before = count;
            for level in 0..self.layers.len() {
                for one in 0..self.layers[level].len() {
                    for other in one + 1..self.layers[level].len() {
                        self.layers[level].swap(one, other);
                        let now = self.crossings();
                        if now < count {
                            count = now;
                        } else {
                            self.layers[level].swap(one, other);
                        }
                    }
                }
            }
            if count == before {
                return;
            }
        }
    }

    /// Puts each layer's places near their neighbours, in order and apart from each other.
    fn settle(&mut self) {
        for level in 0..self.layers.len() {
            let wanted: Vec<f64> = (0..self.layers[level].len()).map(|_| WIDTH / 2.0).collect();
            self.spread(level, &wanted);
        }
        for sweep in 0..SWEEPS {
            let levels: Vec<usize> = if sweep % 2 == 0 { (0..self.layers.len()).rev().collect() } else { (0..self.layers.len()).collect() };
            for level in levels {
                let wanted: Vec<f64> = self.layers[level].iter().map(|place| self.wanted(*place)).collect();
                self.spread(level, &wanted);
            }
        }
    }

    /// The middle of all that a place is joined to.
    fn wanted(&self, place: usize) -> f64 {
        let own = &self.places[place];
        let beside: Vec<f64> = own.above.iter().chain(&own.below).map(|other| self.places[*other].x).collect();
        let count = f64::from(u32::try_from(beside.len()).expect("few lines"));
        if beside.is_empty() {
            own.x
        } else {
            beside.iter().sum::<f64>() / count
        }
    }

    /// Puts a layer's places where they are wanted, as far as their order, their gaps and the margins let them: pushed right from the left, pushed
    /// left from the right, and the middle of the two.
    fn spread(&mut self, level: usize, wanted: &[f64]) {
        let layer = self.layers[level].clone();
        let half: Vec<f64> = layer.iter().map(|place| self.places[*place].half).collect();
        let mut right = wanted.to_vec();
        let mut least = MARGIN - GAP;
        for at in 0..layer.len() {
            right[at] = right[at].max(least + GAP + half[at]);
            least = right[at] + half[at];
        }
        let mut left = wanted.to_vec();
        let mut most = WIDTH - MARGIN + GAP;
        for at in (0..layer.len()).rev() {
            left[at] = left[at].min(most - GAP - half[at]);
            most = left[at] - half[at];
        }
        let middle: Vec<f64> = right.iter().zip(&left).map(|(a, b)| f64::midpoint(*a, *b)).collect();
        let mut most = WIDTH - MARGIN + GAP;
        let mut settled = middle.clone();
        for at in (0..layer.len()).rev() {
            settled[at] = settled[at].min(most - GAP - half[at]);
            most = settled[at] - half[at];
        }
        let mut least = MARGIN - GAP;
        for at in 0..layer.len() {
            settled[at] = settled[at].max(least + GAP + half[at]);
            least = settled[at] + half[at];
            self.places[layer[at]].x = settled[at];
        }
    }
}

/// Where a line between two neighbouring layers leaves its upper place, or meets its lower one: side by side with the others there, in the order of
/// their other ends.
fn joint(drawing: &Drawing, at: usize, other: usize) -> f64 {
    let place = &drawing.places[at];
    let mut beside = if place.below.contains(&other) { place.below.clone() } else { place.above.clone() };
    beside.sort_by(|one, two| drawing.places[*one].x.total_cmp(&drawing.places[*two].x));
    let number = |count: usize| f64::from(u32::try_from(count).expect("few lines"));
    let rank = number(beside.iter().position(|one| *one == other).expect("a neighbour"));
    let apart = (1.4 * place.half / number(beside.len())).min(14.0);
    place.x + apart * (rank - (number(beside.len()) - 1.0) / 2.0)
}

/// A box's fill and edge: entry points for C, programs, and all others.
fn shade(crates: &Crates, name: &str) -> (&'static str, &'static str) {
    if crates.exports.contains(name) {
        ("#fde7c7", "#b7791f")
    } else if crates.programs.contains(name) {
        ("#d9ecd3", "#4d8b3a")
    } else {
        ("#e3ecf8", "#4a6fa5")
    }
}

fn boxed(svg: &mut String, x: f64, y: f64, half: f64, (fill, edge): (&str, &str), text: &str) {
    let (left, wide, middle) = (x - half, 2.0 * half, y + BOX / 2.0 + 4.5);
    writeln!(svg, r#"<rect x="{left:.0}" y="{y:.0}" width="{wide:.0}" height="{BOX:.0}" rx="4" fill="{fill}" stroke="{edge}"/>"#).expect("a line");
    writeln!(svg, r#"<text x="{x:.0}" y="{middle:.0}" text-anchor="middle">{text}</text>"#).expect("a line");
}

/// Which crates are programs: those of the folder crates/, beside crates.txt, whose root is src/main.rt.
#[must_use]
pub fn programs(folder: &Path) -> BTreeSet<String> {
    let crates = fs::read_dir(folder.join("crates")).into_iter().flatten().filter_map(Result::ok);
    crates.filter(|entry| entry.path().join("src/main.rt").is_file()).map(|entry| entry.file_name().to_string_lossy().into_owned()).collect()
}

/// The crates of crates.txt, some of them programs, as an SVG: the lowest layer at the bottom.
#[must_use]
pub fn picture(text: &str, programs: &BTreeSet<String>) -> String {
    let crates = read(text, programs);
    let drawing = drawing(&crates);
    let top = |level: usize| MARGIN + LAYER * f64::from(u32::try_from(drawing.layers.len() - 1 - level).expect("few layers"));
    let height = top(0) + BOX + 58.0;
    let mut svg = String::new();
    writeln!(svg, r#"<svg xmlns="http://www.w3.org/2000/svg" viewBox="0 0 {WIDTH:.0} {height:.0}" font-size="13""#).expect("a line");
    svg.push_str("font-family=\"Helvetica, Arial, sans-serif\" fill=\"#222\">\n");
    writeln!(svg, "<title>The crates, each above those that it needs</title>").expect("a line");
    writeln!(svg, r##"<rect width="{WIDTH:.0}" height="{height:.0}" fill="#fdfdfc"/>"##).expect("a line");
    writeln!(svg, r##"<g fill="none" stroke="#8a939e" stroke-width="1.2">"##).expect("a line");
    for line in &drawing.lines {
        let mut path = String::new();
        for (at, pair) in line.windows(2).enumerate() {
            let (from, to) = (&drawing.places[pair[0]], &drawing.places[pair[1]]);
            let (start, end) = (top(from.level) + BOX, top(to.level));
            let middle = f64::midpoint(start, end);
            let (leaves, meets) = (joint(&drawing, pair[0], pair[1]), joint(&drawing, pair[1], pair[0]));
            if at == 0 {
                write!(path, "M{leaves:.0} {start:.0}").expect("a line");
            } else {
                write!(path, " V{start:.0}").expect("a line");
            }
            write!(path, " C{leaves:.0} {middle:.0} {meets:.0} {middle:.0} {meets:.0} {end:.0}").expect("a line");
        }
        writeln!(svg, r#"<path d="{path}"/>"#).expect("a line");
    }
    svg.push_str("</g>\n");
    for place in &drawing.places {
        if let Some(name) = &place.name {
            boxed(&mut svg, place.x, top(place.level), place.half, shade(&crates, name), name);
        }
    }
    let one_of = |set: &BTreeSet<String>| set.first().cloned().unwrap_or_default();
    let legend = [("laws".to_string(), "library"), (one_of(&crates.exports), "entry points for C"), (one_of(&crates.programs), "programs")];
    for ((name, text), x) in legend.iter().zip([90.0, 260.0, 430.0]) {
        boxed(&mut svg, x, height - BOX - 14.0, 74.0, shade(&crates, name), text);
    }
    let y = height - 14.0 - BOX / 2.0 + 4.5;
    writeln!(svg, r#"<text x="520" y="{y:.0}">A line leads down to a crate that is needed; what another line implies has none.</text>"#)
        .expect("a line");
    svg.push_str("</svg>\n");
    svg
}
