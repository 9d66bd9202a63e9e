//! The statements of the theorems.

use crate::count::Count;
use crate::found::Found;
use crate::proof::{Proofs, Statement};
use crate::section::{Section, Theorems};
use crate::tree::Tree;
use crate::uses::{appears, uses, words};
use std::collections::BTreeSet;

/// The words of a statement come from what is listed, never from proofs.
pub fn find(tree: &Tree, section: &Section) -> Found {
    let mut found = Found::default();
    for theorems in &section.theorems {
        let file = &theorems.file;
        match tree.read(&format!("crates/{file}.antt")) {
            Err(_) => found.faults.push(format!("`{file}` is listed, and there is no crates/{file}.antt")),
            Ok(text) => take(&mut found, section, theorems, &text),
        }
    }
    found
}

fn take(found: &mut Found, section: &Section, theorems: &Theorems, text: &str) {
    let proofs = Proofs::new(text);
    let brought = uses(text);
    let mut lines = BTreeSet::new();
    for name in &theorems.names {
        let Some(statement) = proofs.statement(name) else {
            found.faults.push(format!("`{}` is listed with `{name}`, and states no such thing", theorems.file));
            continue;
        };
        let user = format!("`{name}` of `{}`", theorems.file);
        let said = words(statement.lines().map(|line| proofs.lines[line]));
        found.check_words(section, &said, &brought, &user);
        let own = unlisted(theorems, &proofs, &statement, &said).into_iter();
        found.faults.extend(own.map(|name| format!("{user} uses `{name}` of the same file, which is not listed")));
        lines.extend(statement.lines());
    }
    let things = theorems.names.len();
    found.counts.push(Count { file: theorems.file.clone(), things, lines: lines.len(), kept: 0 });
}

/// The words of a statement that the file itself gives before it, and that are not listed with it.
fn unlisted<'a>(
    theorems: &Theorems,
    proofs: &Proofs<'a>,
    statement: &Statement,
    said: &BTreeSet<String>,
) -> BTreeSet<&'a str> {
    let own = proofs.given_before(statement.at).filter(|name| appears(name, said));
    own.filter(|name| !theorems.names.iter().any(|listed| listed == name)).collect()
}
