//! What the files of one kind come to.

use crate::count::Count;
use crate::section::Section;
use crate::uses::{self, Declared, Origin, Use};
use std::collections::{BTreeMap, BTreeSet};

/// The counts, the sentences, and the declared structs in use, each with the first that uses it.
#[derive(Default)]
pub struct Found {
    pub counts: Vec<Count>,
    pub faults: Vec<String>,
    pub declared: BTreeMap<Declared, String>,
}

/// The declared structs of all of them.
pub fn declared(all: [&Found; 3]) -> BTreeMap<Declared, String> {
    let mut union = BTreeMap::new();
    for (name, user) in all.into_iter().flat_map(|found| &found.declared) {
        union.entry(name.clone()).or_insert_with(|| user.clone());
    }
    union
}

impl Found {
    pub fn uses_declared(&mut self, name: &Declared, user: &str) {
        self.declared.entry(name.clone()).or_insert_with(|| user.to_string());
    }

    /// Every word that a `use` line brings comes from something listed or from the prover's libraries.
    pub fn check_words(&mut self, section: &Section, words: &BTreeSet<String>, lines: &[Use], user: &str) {
        for line in lines {
            for name in line.names.iter().filter(|name| uses::appears(name, words)) {
                self.check_origin(section, &line.origin, name, user);
            }
        }
    }

    fn check_origin(&mut self, section: &Section, origin: &Origin, name: &str, user: &str) {
        match origin {
            Origin::Library => {}
            Origin::Declared(declared) => self.uses_declared(declared, user),
            Origin::Definitions(file) if section.definitions.contains(file) => {}
            Origin::Definitions(file) => {
                self.faults.push(format!("{user} uses `{name}` of `{file}`, which is not listed"))
            }
            Origin::Other(path) => {
                self.faults.push(format!("{user} uses `{name}` of `{path}`, which holds no definitions"))
            }
        }
    }
}
