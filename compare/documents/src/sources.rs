//! The sources' side: which names each file declares.

use std::collections::{BTreeMap, BTreeSet};

use crate::page::Block;

/// The files below crates/ by their paths from there, each with the names that it declares, and those of other folders by their paths from the
/// root. A name of a type's own stands behind the type's and `::`.
#[derive(Debug, Clone, Default)]
pub struct Sources {
    files: BTreeMap<String, BTreeSet<String>>,
    code: BTreeMap<String, String>,
    others: BTreeSet<String>,
}

/// A name at the front, and what follows.
fn name(text: &str) -> (&str, &str) {
    text.split_at(text.find(|c: char| c.is_whitespace() || "(){}<>:;=,".contains(c)).unwrap_or(text.len()))
}

/// The names that a file of definitions or theorems declares: behind `record` or `data`, or ahead of ` : `. Those of a proof's own steps, which are
/// further in and not `pub`, are no names of the file.
fn declared_in_proofs(text: &str) -> BTreeSet<String> {
    let mut all = BTreeSet::new();
    for line in text.lines() {
        let mut rest = line.trim_start();
        let further_in = line.len() - rest.len() > 2;
        let mut open = false;
        let mut typed = false;
        while let Some((word, behind)) = rest.split_once(' ') {
            match word {
                "pub" => open = true,
                "abbrev" | "unfoldable" => {}
                "record" | "data" => typed = true,
                _ => break,
            }
            rest = behind;
        }
        let (word, behind) = rest.split_once(' ').unwrap_or((rest, ""));
        let is_name = !word.is_empty() && word.chars().all(|c| c.is_alphanumeric() || "-_'₀₁₂".contains(c));
        if is_name && (open || !further_in) && (typed || (behind.trim() == ":" || behind.trim_start().starts_with(": "))) {
            all.insert(word.to_string());
        }
    }
    all
}

/// The type of a block that begins with `impl`, which may have parameters and a trait ahead of it.
fn owner_of(head: &str) -> &str {
    let head = head.strip_prefix('<').and_then(|rest| rest.split_once("> ")).map_or(head.trim_start(), |(_, behind)| behind);
    name(head.split_once(" for ").map_or(head, |(_, behind)| behind)).0
}

/// The names that a source declares; those inside `impl` or `trait` stand behind the type's or the trait's.
fn declared_in_code(text: &str) -> BTreeSet<String> {
    let mut all = BTreeSet::new();
    let mut owner = String::new();
    for line in text.lines() {
        if line.starts_with('}') {
            owner.clear();
        }
        if let Some(behind) = line.strip_prefix("impl").filter(|behind| behind.starts_with([' ', '<'])) {
            owner = owner_of(behind).to_string() + "::";
        }
        let mut rest = line.trim_start();
        for word in ["pub ", "extern \"C\" "] {
            rest = rest.strip_prefix(word).unwrap_or(rest);
        }
        for word in ["fn ", "struct ", "enum ", "trait ", "const ", "static ", "ghost ", "type ", "mod "] {
            if let Some(behind) = rest.strip_prefix(word) {
                all.insert(owner.clone() + name(behind).0);
            }
        }
        if let Some(behind) = line.strip_prefix("pub trait ").or_else(|| line.strip_prefix("trait ")) {
            owner = name(behind).0.to_string() + "::";
        }
    }
    all
}

/// Is the text the path of a file with names?
fn has_names(path: &str) -> bool {
    path.ends_with(".antt") || path.ends_with(".rt")
}

/// A file's path among other text, where it is not in backticks: `compare/`, which is a folder, is none.
fn path_in(word: &str) -> Option<&str> {
    let word = word.trim_matches(|c: char| "(),;:`".contains(c)).trim_end_matches('.');
    let (_, file) = word.rsplit_once('/')?;
    let (stem, end) = file.rsplit_once('.')?;
    (!stem.is_empty() && !end.is_empty() && end.bytes().all(|b| b.is_ascii_alphanumeric()) && !word.contains('`') && !word.contains("]("))
        .then_some(word)
}

/// Is the text an edit, a crate and a label with `/` between them?
fn is_edit(text: &str) -> bool {
    text.split_once('/').is_some_and(|(a, b)| [a, b].iter().all(|part| !part.is_empty() && part.chars().all(|c| c.is_alphanumeric() || c == '_')))
}

impl Sources {
    /// Takes a file in, by its path below crates/.
    pub fn add(&mut self, path: &str, text: &str) {
        let names = if path.ends_with(".rt") { declared_in_code(text) } else { declared_in_proofs(text) };
        self.files.insert(path.to_string(), names);
        if path.ends_with(".rt") {
            self.code.insert(path.to_string(), text.to_string());
        }
    }

    /// Takes a file of another folder in, by its path from the root.
    pub fn add_other(&mut self, path: &str) {
        self.others.insert(path.to_string());
    }

    /// The crates that have files.
    #[must_use]
    pub fn crates(&self) -> BTreeSet<&str> {
        self.files.keys().filter_map(|path| path.split_once('/')).map(|(krate, _)| krate).collect()
    }

    /// The path of an edit's file.
    fn edit(text: &str) -> Option<String> {
        let (name, label) = text.split_once('/')?;
        is_edit(text).then(|| format!("{name}/must-fail/{label}.edit"))
    }

    /// Does a file declare a name as a document writes it? `Type::name` asks for the type's own, `crate::name` and `module::name` for the place.
    fn declares(&self, path: &str, name: &str) -> bool {
        let parts: Vec<&str> = name.split("::").collect();
        let (last, ahead) = parts.split_last().expect("a part");
        let owner = ahead.last().filter(|part| part.starts_with(|c: char| c.is_ascii_uppercase()));
        let places = &ahead[..ahead.len() - usize::from(owner.is_some())];
        let (krate, below) = path.split_once('/').unwrap_or((path, ""));
        let module = below.rsplit('/').next().and_then(|file| file.split_once('.')).map_or("", |(stem, _)| stem);
        let there = places.iter().all(|place| *place == krate || *place == module);
        let Some(names) = self.files.get(path) else { return false };
        there
            && match owner {
                Some(owner) => names.contains(&format!("{owner}::{last}")),
                None => names.contains(*last) || (path.ends_with(".rt") && names.iter().any(|known| known.ends_with(&format!("::{last}")))),
            }
    }

    /// The files that a block names, by their paths here; and the paths that lead nowhere.
    fn places(&self, block: &Block) -> (Vec<String>, Vec<String>) {
        let quoted = block.quoted();
        let words = block.text.split_whitespace().filter_map(path_in).filter(|word| !quoted.contains(word));
        let (mut files, mut missing) = (Vec::new(), Vec::new());
        for place in quoted.iter().copied().filter(|text| text.contains('/')).chain(words) {
            let path = Self::edit(place).unwrap_or_else(|| place.to_string());
            if self.files.contains_key(&path) {
                files.push(path);
            } else if !self.others.contains(&path) {
                missing.push(format!("line {}: there is no file {place}", block.line));
            }
        }
        (files, missing)
    }

    /// What a block gives and the sources lack. Where it names files, its names are looked for in them, and functions and types also in the
    /// sources of their crates; else anywhere. In a row each file has to declare one of the row's names. A crate's name is a name, too.
    #[must_use]
    pub fn missing(&self, block: &Block) -> Vec<String> {
        let (files, mut found) = self.places(block);
        let names: Vec<&str> =
            block.quoted().into_iter().filter(|text| !text.contains('/') && !text.starts_with("make ") && !text.starts_with("rt ")).collect();
        let crates: BTreeSet<&str> = files.iter().filter_map(|path| path.split_once('/')).map(|(krate, _)| krate).collect();
        let near = |path: &str| {
            let (krate, below) = path.split_once('/').unwrap_or((path, ""));
            files.is_empty() || files.iter().any(|file| file == path) || (crates.contains(krate) && below.starts_with("src/"))
        };
        for name in &names {
            if !self.crates().contains(name) && !self.files.keys().any(|path| near(path) && self.declares(path, name)) {
                found.push(format!("line {}: {name} is not declared there", block.line));
            }
        }
        if block.row {
            for path in files.iter().filter(|path| has_names(path)) {
                if !names.iter().any(|name| self.declares(path, name)) {
                    found.push(format!("line {}: {path} declares none of the row's names", block.line));
                }
            }
        }
        found
    }

    /// The lines of a function, from the first to its closing brace; none where the file has no such function.
    fn function(&self, path: &str, name: &str) -> Option<Vec<&str>> {
        let last = name.rsplit("::").next().unwrap_or(name);
        let mut lines = self.code.get(path)?.lines().skip_while(|line| !line.contains(&format!("fn {last}(")));
        let first = lines.next()?;
        let end = " ".repeat(first.len() - first.trim_start().len()) + "}";
        Some(std::iter::once(first).chain(lines.take_while(|line| *line != end)).collect())
    }

    /// Where a walk through the code does not go as the code does: each list that counts from 1 begins with a function, and every other function
    /// that it names has to be called by one that stands ahead of it in the list, or beside it. Lists of definitions have none.
    #[must_use]
    pub fn astray(&self, blocks: &[Block]) -> Vec<String> {
        let mut found = Vec::new();
        let mut ahead: Vec<Vec<&str>> = Vec::new();
        for block in blocks.iter().filter(|block| block.step().is_some()) {
            if block.step() == Some(1) {
                ahead.clear();
            }
            let (files, _) = self.places(block);
            let named = block.quoted().into_iter().filter(|text| !text.contains('/'));
            let functions: Vec<(&str, Vec<&str>)> = named
                .filter_map(|name| files.iter().filter(|path| self.declares(path, name)).find_map(|path| Some((name, self.function(path, name)?))))
                .collect();
            let begins = ahead.is_empty();
            ahead.extend(functions.iter().map(|(_, body)| body.clone()));
            for (at, (name, body)) in functions.iter().enumerate() {
                let call = name.rsplit("::").next().unwrap_or(name).to_string() + "(";
                let calls = |line: &&str| {
                    line.match_indices(&call)
                        .any(|(at, _)| !line[..at].ends_with(|c: char| c.is_alphanumeric() || c == '_') && !line[..at].ends_with("fn "))
                };
                let called = ahead.iter().filter(|other| *other != body).any(|other| other.iter().any(calls));
                let first = begins && at == 0;
                if !called && !first {
                    found.push(format!("line {}: {name} is called by nothing ahead of it", block.line));
                }
            }
        }
        found
    }
}
