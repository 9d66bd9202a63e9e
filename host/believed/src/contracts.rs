//! The contracts of the public calls.

use crate::code;
use crate::count::Count;
use crate::found::Found;
use crate::section::Section;
use crate::tree::Tree;
use crate::uses::{ghost_uses, words};

/// The words of a contract, like those of a theorem, come from what is listed.
pub fn find(tree: &Tree, section: &Section) -> Found {
    let mut found = Found::default();
    for file in &section.contracts {
        match tree.read(&format!("crates/{file}")) {
            Err(_) => found.faults.push(format!("`{file}` is listed, and there is no crates/{file}")),
            Ok(text) => take(&mut found, section, file, &text),
        }
    }
    found
}

fn take(found: &mut Found, section: &Section, file: &str, text: &str) {
    let lines: Vec<&str> = text.lines().collect();
    let places = code::contracts(&lines);
    let total = places.iter().map(|place| place.len()).sum();
    found.counts.push(Count { file: file.to_string(), things: places.len(), lines: total, kept: 0 });
    let said = words(places.into_iter().flat_map(|place| &lines[place]).map(|line| unnamed(line)));
    found.check_words(section, &said, &ghost_uses(text), &format!("a contract of `{file}`"));
}

/// A line without the name that it gives its clause.
fn unnamed(line: &str) -> &str {
    let clause = ["requires ", "ensures "].iter().find_map(|begin| line.trim_start().strip_prefix(begin));
    clause.and_then(|clause| clause.find('{').map(|at| &clause[at..])).unwrap_or(line)
}
