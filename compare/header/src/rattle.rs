//! The engine's side, in Rattle; and the safe wrapper's, in Rust.

use std::collections::BTreeSet;

use crate::{enclosed, number, plain, word, Call, Side, Type};

fn without_comments(text: &str) -> String {
    text.lines().map(|line| line.split_once("//").map_or(line, |(before, _)| before)).collect::<Vec<_>>().join("\n")
}

/// `FedAnswer` is `dm_fed_answer` in C.
fn name_in_c(name: &str) -> String {
    let mut text = String::from("dm");
    for c in name.chars() {
        if c.is_ascii_uppercase() {
            text.push('_');
        }
        text.push(c.to_ascii_lowercase());
    }
    text
}

/// `BankOutOfRange` is `BANK_OUT_OF_RANGE`, and `SysEx` is one word.
fn constant_in_c(name: &str) -> String {
    name_in_c(&name.replace("SysEx", "Sysex"))["dm_".len()..].to_ascii_uppercase()
}

fn type_of(text: &str) -> Option<Type> {
    Some(match plain(text).as_str() {
        "u8" => Type::Number(8),
        "u16" => Type::Number(16),
        "u64" => Type::Number(64),
        "usize" => Type::Size,
        "*const u8" => Type::Lent,
        "*mut u8" => Type::Written,
        name if name.starts_with(|c: char| c.is_ascii_uppercase()) => Type::Record(name_in_c(name)),
        _ => return None,
    })
}

/// Parameters, or a struct's fields: a slice is its pointer and its length, and `details: [u64; 4]` is detail0 to detail3.
fn members(text: &str) -> Option<Vec<(String, Type)>> {
    let mut all = Vec::new();
    for member in text.split(',').filter(|member| !member.trim().is_empty()) {
        let (name, kind) = member.split_once(':')?;
        let name = name.trim().trim_start_matches("pub ").to_string();
        let kind = plain(kind);
        let slice = match kind.as_str() {
            "&[u8]" => Some(Type::Lent),
            "&mut [u8]" => Some(Type::Written),
            _ => None,
        };
        if let Some(slice) = slice {
            all.push((name.clone(), slice));
            all.push((format!("{name}_len"), Type::Size));
        } else if let Some(inside) = kind.strip_prefix('[').and_then(|kind| kind.strip_suffix(']')) {
            let (each, count) = inside.split_once(';')?;
            let each = type_of(each)?;
            all.extend((0..number(count)?).map(|i| (format!("{}{i}", name.trim_end_matches('s')), each.clone())));
        } else {
            all.push((name, type_of(&kind)?));
        }
    }
    Some(all)
}

/// A call behind its `fn`.
fn call(text: &str) -> Option<(String, Call)> {
    let (name, behind) = word(text);
    let (inside, behind) = enclosed(behind, '(', ')')?;
    let (answer, _) = word(behind.trim_start().strip_prefix("->")?);
    Some((name.to_string(), Call { parameters: members(inside)?, answer: type_of(answer)? }))
}

/// What follows each mark, up to the next of them. It panics where one cannot be read, so that nothing is passed over.
fn each<'a, T>(text: &'a str, mark: &str, read: impl Fn(&'a str) -> Option<T>) -> Vec<T> {
    let parts = text.split(mark).skip(1);
    parts.map(|part| read(part).unwrap_or_else(|| panic!("cannot be read: {mark}{}", part.lines().next().unwrap_or_default()))).collect()
}

fn records(text: &str, mark: &str, into: &mut Side) {
    for (name, fields) in each(text, mark, |part| {
        let (name, behind) = word(part.split_once("pub struct ")?.1);
        Some((name_in_c(name), members(enclosed(behind, '{', '}')?.0)?))
    }) {
        assert!(into.records.insert(name.clone(), fields).is_none(), "twice: {name}");
    }
}

fn constants(text: &str) -> Vec<(String, u64)> {
    let lines = text.lines().filter_map(|line| line.strip_prefix("pub const "));
    lines.filter_map(|line| Some((word(line).0.to_string(), number(line.split_once('=')?.1.trim().trim_end_matches(';'))?))).collect()
}

/// The refusals' numbers: the arms of `number` in the refusal table.
fn refusals(text: &str) -> Vec<(String, u64)> {
    let Some((_, body)) = text.split_once("pub fn number(self) -> u8") else {
        return Vec::new();
    };
    let body = body.split_once("\n    }\n").map_or(body, |(own, _)| own);
    each(body, "Refusal::", |arm| Some((constant_in_c(word(arm).0), number(arm.split_once("=>")?.1.split_once(',')?.0)?)))
}

/// Reads the engine's sources, each with the name of its crate, or of its module below it. Constants of the crates that have or serve the
/// entry points must stand in the header; those of other crates, and of modules of the crates that serve, may.
#[must_use]
pub fn engine(sources: &[(String, String)]) -> Side {
    let mut side = Side::default();
    let mut twice = BTreeSet::new();
    for (name, text) in sources {
        let text = without_comments(text);
        for (call, signature) in each(&text, "#[unsafe(no_mangle)]\npub extern \"C\" fn ", call) {
            assert!(side.calls.insert(call.clone(), signature).is_none(), "twice: {call}");
        }
        assert_eq!(
            text.matches("no_mangle").count(),
            text.matches("#[unsafe(no_mangle)]\npub extern \"C\" fn ").count(),
            "another form of export in {name}"
        );
        records(&text, "#[repr(C)]", &mut side);
        let crosses_to_c = name.starts_with("host") || matches!(name.as_str(), "stream" | "held_keys::bytes" | "running_status::bytes");
        for (constant, value) in constants(&text) {
            let into = if crosses_to_c { &mut side.constants } else { &mut side.others };
            if into.insert(constant.clone(), value).is_some_and(|before| before != value) {
                twice.insert(constant);
            }
        }
        side.constants.extend(refusals(&text));
    }
    side.others.retain(|constant, _| !twice.contains(constant));
    side
}

/// Reads the safe wrapper's declarations.
#[must_use]
pub fn wrapper(text: &str) -> Side {
    let mut side = Side::default();
    let text = without_comments(text);
    side.calls.extend(each(&text, "pub fn dm", |part| call(part).map(|(name, signature)| (format!("dm{name}"), signature))));
    records(&text, "#[repr(C)]", &mut side);
    side.constants.extend(constants(&text));
    side
}
