//! A document's side: its headings, its links, and what it gives in backticks.

/// What belongs together: a table's row, an item of a list, or a paragraph.
#[derive(Debug, Clone, PartialEq, Eq)]
pub struct Block {
    /// The line where it begins, counted from 1.
    pub line: usize,
    /// A table's row, behind the two lines that open the table.
    pub row: bool,
    pub text: String,
}

impl Block {
    /// What stands in backticks.
    #[must_use]
    pub fn quoted(&self) -> Vec<&str> {
        self.text.split('`').skip(1).step_by(2).collect()
    }

    /// Its number, where it is an item of a list that counts.
    #[must_use]
    pub fn step(&self) -> Option<usize> {
        self.text.split_once(". ")?.0.parse().ok()
    }

    /// A row's cells.
    #[must_use]
    pub fn cells(&self) -> Vec<&str> {
        self.text.trim().trim_matches('|').split('|').map(str::trim).collect()
    }
}

/// Is the line an item of a list, `- ` or `1. `?
fn is_item(line: &str) -> bool {
    line.starts_with("- ") || line.split_once(". ").is_some_and(|(number, _)| !number.is_empty() && number.bytes().all(|b| b.is_ascii_digit()))
}

/// Every block of a document but headings and code that is set off.
#[must_use]
pub fn blocks(text: &str) -> Vec<Block> {
    let mut all: Vec<Block> = Vec::new();
    let mut open = false;
    let mut above = "";
    for (at, line) in text.lines().enumerate() {
        let whole = line.trim();
        let code = line.starts_with("    ") && !open;
        let table = whole.starts_with('|');
        if whole.is_empty() || whole.starts_with('#') || code {
            open = false;
        } else if table {
            let rule = whole.chars().all(|c| "|- ".contains(c));
            if rule {
                all.pop_if(|head| head.row);
            } else {
                all.push(Block { line: at + 1, row: true, text: whole.to_string() });
            }
            open = false;
        } else if open && !is_item(whole) && !above.trim().is_empty() {
            let last = all.last_mut().expect("an open block");
            last.text.push(' ');
            last.text.push_str(whole);
        } else {
            all.push(Block { line: at + 1, row: false, text: whole.to_string() });
            open = true;
        }
        above = line;
    }
    all
}

/// The headings of a level, in order.
#[must_use]
pub fn headings(text: &str, level: usize) -> Vec<&str> {
    let mark = "#".repeat(level) + " ";
    text.lines().filter_map(|line| line.strip_prefix(&mark)).map(str::trim).collect()
}

/// A heading's name in a link, as the web pages of repositories make it.
#[must_use]
pub fn slug(heading: &str) -> String {
    let kept = heading.chars().filter(|c| c.is_alphanumeric() || *c == ' ' || *c == '-' || *c == '_');
    kept.map(|c| if c == ' ' { '-' } else { c.to_ascii_lowercase() }).collect()
}

/// Where each link of a document leads.
#[must_use]
pub fn links(text: &str) -> Vec<&str> {
    text.split("](").skip(1).filter_map(|rest| rest.split_once(')')).map(|(to, _)| to).collect()
}
