//! The structs, enums and constants of the code that definitions and statements speak of.

use crate::code;
use crate::count::Count;
use crate::found::Found;
use crate::section::Section;
use crate::tree::Tree;
use crate::uses::Declared;
use std::collections::BTreeMap;

/// Each declared name stands in a listed file of its crate.
pub fn find(tree: &Tree, section: &Section, declared: &BTreeMap<Declared, String>) -> Found {
    let mut found = Found::default();
    let mut open = declared.clone();
    for file in &section.structs {
        match tree.read(&format!("crates/{file}")) {
            Err(_) => found.faults.push(format!("`{file}` is listed, and there is no crates/{file}")),
            Ok(text) => found.counts.push(take(file, &text, &mut open)),
        }
    }
    found.faults.extend(open.iter().map(|(Declared { krate, name }, user)| {
        format!("{user} uses `{name}`, declared in `{krate}`, which stands in no listed file of structs")
    }));
    found
}

/// Counts those of a file and takes them from the open ones.
fn take(file: &str, text: &str, open: &mut BTreeMap<Declared, String>) -> Count {
    let lines: Vec<&str> = text.lines().collect();
    let mut count = Count { file: file.to_string(), things: 0, lines: 0, kept: 0 };
    open.retain(|declared, _| {
        let own = file.split('/').next() == Some(declared.krate.as_str());
        let Some(place) = code::declared(&lines, &declared.name).filter(|_| own) else { return true };
        count.things += 1;
        count.lines += place.len();
        false
    });
    count
}
