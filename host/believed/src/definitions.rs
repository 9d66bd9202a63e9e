//! The files of definitions.

use crate::count::Count;
use crate::found::Found;
use crate::section::Section;
use crate::tree::Tree;
use crate::uses::{is_use, uses, Origin};

/// Each uses only files that are listed before it, so that no one looks ahead.
pub fn find(tree: &Tree, section: &Section) -> Found {
    let mut found = Found::default();
    for (place, file) in section.definitions.iter().enumerate() {
        match tree.read(&format!("crates/{file}.antt")) {
            Err(_) => found.faults.push(format!("`{file}` is listed, and there is no crates/{file}.antt")),
            Ok(text) => {
                found.counts.push(count(file, &text));
                check(&mut found, section, place, &text);
            }
        }
    }
    found
}

fn count(file: &str, text: &str) -> Count {
    let kept = text.lines().filter(|line| !line.trim().is_empty() && !is_use(line)).count();
    Count { file: file.to_string(), things: 1, lines: text.lines().count(), kept }
}

fn check(found: &mut Found, section: &Section, place: usize, text: &str) {
    let file = &section.definitions[place];
    for line in uses(text) {
        match line.origin {
            Origin::Library => {}
            Origin::Declared(declared) => found.uses_declared(&declared, &format!("`{file}`")),
            Origin::Definitions(other) => found.faults.extend(look(section, place, file, &other)),
            Origin::Other(path) => found.faults.push(format!("`{file}` uses `{path}`, which holds no definitions")),
        }
    }
}

/// A sentence where the other file is not listed before this place.
fn look(section: &Section, place: usize, file: &str, other: &str) -> Option<String> {
    match section.definitions.iter().position(|listed| listed == other) {
        Some(before) if before < place => None,
        Some(_) => Some(format!("`{file}` uses `{other}`, which is listed after it")),
        None => Some(format!("`{file}` uses `{other}`, which is not listed")),
    }
}
