//! The must-fail edits: each is named in the promises.

use crate::section::{cells, tokens, PROMISES};
use crate::tree::Tree;
use std::collections::BTreeSet;

/// A sentence for each edit that no line names.
pub fn unnamed(tree: &Tree, promises: &str) -> Vec<String> {
    let named = named(promises);
    let open = edits(tree).into_iter().filter(|edit| !named.contains(edit));
    open.map(|edit| format!("the must-fail edit `{edit}` is not named in {PROMISES}")).collect()
}

/// All of them, as `CRATE/NAME`.
fn edits(tree: &Tree) -> Vec<String> {
    let mut all = Vec::new();
    for krate in tree.names("crates") {
        let names = tree.names(&format!("crates/{krate}/must-fail"));
        let edits = names.iter().filter_map(|name| name.strip_suffix(".edit"));
        all.extend(edits.map(|name| format!("{krate}/{name}")));
    }
    all
}

/// Every token with its crate: a name without one has that of the token before it in its cell.
fn named(promises: &str) -> BTreeSet<String> {
    let mut named = BTreeSet::new();
    for line in promises.lines() {
        named.extend(tokens(line).map(str::to_string));
        for cell in cells(line) {
            let mut krate = None;
            for token in tokens(cell) {
                match token.split_once('/') {
                    Some((before, _)) => krate = Some(before),
                    None => named.extend(krate.map(|krate| format!("{krate}/{token}"))),
                }
            }
        }
    }
    named
}
