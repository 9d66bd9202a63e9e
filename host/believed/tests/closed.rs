//! The repository's own list is closed.

use believed::tree::Tree;
use std::path::Path;

#[test]
fn the_list_of_the_promises_is_closed() {
    let tree = Tree::around(Path::new(env!("CARGO_MANIFEST_DIR"))).expect("a repository");
    let found = believed::believed(&tree).unwrap_or_else(|why| panic!("{why}"));
    assert!(found.faults.is_empty(), "{}", found.faults.join("\n"));
    print!("{}", found.text(false));
}
