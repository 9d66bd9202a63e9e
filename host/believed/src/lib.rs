//! What a reader must believe: the list in `docs/PROMISES.md`, counted, and where it is not
//! closed. Its definitions, structs, contracts and theorems are the whole of it, or a sentence
//! says why not.
#![forbid(unsafe_code)]

pub mod code;
pub mod contracts;
pub mod count;
pub mod definitions;
pub mod edits;
pub mod found;
pub mod proof;
pub mod section;
pub mod structs;
pub mod theorems;
pub mod tree;
pub mod uses;

use count::Group;
use section::Section;
use tree::Tree;

/// What is listed, counted, and a sentence for each thing that keeps the list from being closed.
pub struct Believed {
    pub groups: [Group; 4],
    pub faults: Vec<String>,
}

impl Believed {
    pub fn text(&self, files: bool) -> String {
        self.groups.iter().map(|group| group.text(files)).collect()
    }
}

/// An error is a list that cannot be read at all.
pub fn believed(tree: &Tree) -> Result<Believed, String> {
    let promises = tree.read(section::PROMISES)?;
    let section = section::read(&promises)?;
    let definitions = definitions::find(tree, &section);
    let contracts = contracts::find(tree, &section);
    let theorems = theorems::find(tree, &section);
    let declared = found::declared([&definitions, &contracts, &theorems]);
    let structs = structs::find(tree, &section, &declared);
    let mut faults = section.faults.clone();
    for found in [&definitions, &structs, &contracts, &theorems] {
        faults.extend(found.faults.iter().cloned());
    }
    let groups = [
        Group::definitions(definitions.counts),
        Group::structs(structs.counts),
        Group::contracts(contracts.counts),
        Group::theorems(theorems.counts),
    ];
    faults.extend(unsaid(&section, &groups));
    faults.extend(edits::unnamed(tree, &promises));
    Ok(Believed { groups, faults })
}

/// The sums that the section does not have word for word.
fn unsaid(section: &Section, groups: &[Group; 4]) -> Vec<String> {
    let said = plain(&section.text);
    let missing = groups.iter().map(Group::sum).filter(|sum| !said.contains(sum.as_str()));
    missing.map(|sum| format!("the section does not say: {sum}")).collect()
}

/// One space between words, and no comma inside a number.
fn plain(text: &str) -> String {
    let words: Vec<&str> = text.split_whitespace().collect();
    let text: Vec<char> = words.join(" ").chars().collect();
    let digit = |at: usize| text.get(at).is_some_and(char::is_ascii_digit);
    let inside = |at: usize| text[at] == ',' && at > 0 && digit(at - 1) && digit(at + 1);
    (0..text.len()).filter(|&at| !inside(at)).map(|at| text[at]).collect()
}
