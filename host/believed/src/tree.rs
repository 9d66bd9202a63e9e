//! The files of a repository.

use std::fs;
use std::path::{Path, PathBuf};

pub struct Tree {
    root: PathBuf,
}

impl Tree {
    pub fn new(root: &Path) -> Tree {
        Tree { root: root.to_path_buf() }
    }

    /// The repository that a folder lies in.
    pub fn around(folder: &Path) -> Option<Tree> {
        folder.ancestors().find(|root| root.join(crate::section::PROMISES).is_file()).map(Tree::new)
    }

    pub fn read(&self, path: &str) -> Result<String, String> {
        fs::read_to_string(self.root.join(path)).map_err(|error| format!("{path}: {error}"))
    }

    /// The names in a folder, in order; none where there is no folder.
    pub fn names(&self, path: &str) -> Vec<String> {
        let entries = fs::read_dir(self.root.join(path)).into_iter().flatten().flatten();
        let mut names: Vec<String> = entries.filter_map(|entry| entry.file_name().into_string().ok()).collect();
        names.sort();
        names
    }
}
