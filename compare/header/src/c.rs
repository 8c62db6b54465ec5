//! The header's side.

use crate::{enclosed, number, plain, word, Call, Side, Type};

fn without_comments(text: &str) -> String {
    let mut plain = String::new();
    let mut rest = text;
    while let Some((before, behind)) = rest.split_once("/*") {
        plain.push_str(before);
        plain.push(' ');
        rest = behind.split_once("*/").map_or("", |(_, after)| after);
    }
    plain + rest
}

fn type_of(text: &str) -> Option<Type> {
    Some(match plain(text).as_str() {
        "uint8_t" => Type::Number(8),
        "uint16_t" => Type::Number(16),
        "uint64_t" => Type::Number(64),
        "size_t" => Type::Size,
        "const uint8_t *" => Type::Lent,
        "uint8_t *" => Type::Written,
        name if name.starts_with("dm_") => Type::Record(name.to_string()),
        _ => return None,
    })
}

/// A declared name with its type in front: `const uint8_t *raw`.
fn declared(text: &str) -> Option<(String, Type)> {
    let text = text.trim();
    let start = text.rfind(|c: char| !c.is_ascii_alphanumeric() && c != '_')? + 1;
    let (before, name) = text.split_at(start);
    Some((name.to_string(), type_of(before)?))
}

fn parameters(text: &str) -> Option<Vec<(String, Type)>> {
    match text.trim() {
        "void" => Some(Vec::new()),
        text => text.split(',').map(declared).collect(),
    }
}

/// Reads the header. It panics at a line that it cannot read, so that nothing is passed over.
#[must_use]
pub fn header(text: &str) -> Side {
    let mut side = Side::default();
    let text = without_comments(text);
    let (directives, code): (Vec<&str>, Vec<&str>) = text.lines().partition(|line| line.starts_with('#'));
    for line in directives {
        let Some(rest) = line.strip_prefix("#define ") else { continue };
        let (name, value) = word(rest);
        if let Some(name) = name.strip_prefix("DM_") {
            let value = number(value).unwrap_or_else(|| panic!("no number: {line}"));
            assert!(side.constants.insert(name.to_string(), value).is_none(), "twice: {line}");
        }
    }
    let code = code.join("\n").replace("extern \"C\" {", "");
    let mut rest = code.as_str();
    loop {
        rest = rest.trim();
        if rest.is_empty() || rest == "}" {
            return side;
        }
        rest = statement(rest, &mut side).unwrap_or_else(|| panic!("cannot be read: {}", rest.lines().next().unwrap_or_default()));
    }
}

/// Reads one struct or one prototype, and gives what follows.
fn statement<'a>(text: &'a str, side: &mut Side) -> Option<&'a str> {
    if let Some(body) = text.strip_prefix("typedef struct ") {
        let (tag, body) = word(body);
        let (fields, behind) = enclosed(body, '{', '}')?;
        let fields = fields.split_terminator(';').filter(|field| !field.trim().is_empty()).map(declared).collect::<Option<_>>()?;
        let (name, behind) = word(behind);
        assert_eq!(tag, name, "a struct's tag is its name");
        assert!(side.records.insert(name.to_string(), fields).is_none(), "twice: {name}");
        return behind.trim_start().strip_prefix(';');
    }
    let (answer, behind) = word(text);
    let (name, behind) = word(behind);
    let (inside, behind) = enclosed(behind, '(', ')')?;
    let call = Call { parameters: parameters(inside)?, answer: type_of(answer)? };
    assert!(side.calls.insert(name.to_string(), call).is_none(), "twice: {name}");
    behind.trim_start().strip_prefix(';')
}
