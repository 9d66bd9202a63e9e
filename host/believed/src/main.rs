//! `believed`: counts what a reader must believe, and fails where the list of it is not closed.
#![forbid(unsafe_code)]

use believed::tree::Tree;
use std::io::{self, Write};
use std::path::Path;
use std::process::ExitCode;

const USAGE: &str = "believed [--files] [REPOSITORY]";

fn main() -> ExitCode {
    let arguments: Vec<String> = std::env::args().skip(1).collect();
    let words: Vec<&str> = arguments.iter().map(String::as_str).collect();
    match run(&words) {
        Ok(()) => ExitCode::SUCCESS,
        Err(faults) => {
            faults.iter().for_each(|fault| eprintln!("believed: {fault}"));
            ExitCode::FAILURE
        }
    }
}

fn run(words: &[&str]) -> Result<(), Vec<String>> {
    let files = words.contains(&"--files");
    let rest: Vec<&str> = words.iter().copied().filter(|word| *word != "--files").collect();
    let found = tree(&rest).and_then(|tree| believed::believed(&tree)).map_err(|why| vec![why])?;
    print(&found.text(files)).map_err(|why| vec![why])?;
    if found.faults.is_empty() {
        Ok(())
    } else {
        Err(found.faults)
    }
}

/// A reader that went away is no failure.
fn print(text: &str) -> Result<(), String> {
    match io::stdout().lock().write_all(text.as_bytes()) {
        Err(error) if error.kind() != io::ErrorKind::BrokenPipe => Err(error.to_string()),
        _ => Ok(()),
    }
}

/// The repository that is named, or the one around the present folder.
fn tree(rest: &[&str]) -> Result<Tree, String> {
    match rest {
        [] => {
            let here = std::env::current_dir().map_err(|error| error.to_string())?;
            Tree::around(&here).ok_or_else(|| "no repository around this folder".to_string())
        }
        [root] if !root.starts_with('-') => Ok(Tree::new(Path::new(root))),
        _ => Err(USAGE.to_string()),
    }
}
