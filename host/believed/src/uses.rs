//! The `use` lines of the proof language, and its words.

use std::collections::BTreeSet;

/// The prover's own libraries; `Rattle.std` is one too.
const LIBRARIES: [&str; 5] = ["mathlib", "Prim", "native", "borrow", "lib"];

/// Where an operator has its operands.
const HOLE: char = '◌';

/// A struct, enum or constant of a crate's code.
#[derive(Clone, PartialEq, Eq, PartialOrd, Ord)]
pub struct Declared {
    pub krate: String,
    pub name: String,
}

/// Where a `use` line takes its names from.
pub enum Origin {
    Library,
    /// A file of definitions, as it is listed.
    Definitions(String),
    Declared(Declared),
    /// Anything else, by its path.
    Other(String),
}

pub struct Use {
    pub origin: Origin,
    pub names: Vec<String>,
}

/// The `use` lines of a file of proofs or definitions.
pub fn uses(text: &str) -> Vec<Use> {
    found(text, &["use ", "pub use "])
}

/// The lines by which code brings words of its contracts.
pub fn ghost_uses(text: &str) -> Vec<Use> {
    found(text, &["ghost use "])
}

/// A line of definitions that brings names and says nothing.
pub fn is_use(line: &str) -> bool {
    line.starts_with("use ") || line.starts_with("pub use ")
}

fn found(text: &str, begins: &[&str]) -> Vec<Use> {
    let lines: Vec<&str> = text.lines().collect();
    (0..lines.len()).filter_map(|at| body(&lines[at..], begins)).map(|body| read(&body)).collect()
}

/// What stands behind the first line's `use`, to the brace that closes its names, be it lines below.
fn body(lines: &[&str], begins: &[&str]) -> Option<String> {
    let first = begins.iter().find_map(|begin| lines[0].strip_prefix(begin))?;
    let ends = |line: &&str| line.contains('}');
    let below = if first.contains('{') { lines.iter().position(ends).unwrap_or(lines.len() - 1) } else { 0 };
    let text: String = std::iter::once(first).chain(lines[1..=below].iter().map(|line| line.trim())).collect();
    Some(text.trim_end().trim_end_matches(';').to_string())
}

/// `PATH.{name, name as other}`, `PATH as name`, or `PATH`, which brings its last part.
fn read(body: &str) -> Use {
    if let Some((path, names)) = body.split_once(".{") {
        let names = names.trim_end_matches('}').split(',').map(|name| renamed(name).1.trim().to_string());
        return Use { origin: origin(path), names: names.filter(|name| !name.is_empty()).collect() };
    }
    let (path, name) = renamed(body);
    Use { origin: origin(path), names: vec![name.rsplit('.').next().unwrap_or(name).to_string()] }
}

/// What is named, and what it is called from there on.
fn renamed(name: &str) -> (&str, &str) {
    name.split_once(" as ").unwrap_or((name, name))
}

fn origin(path: &str) -> Origin {
    let parts: Vec<&str> = path.split('.').collect();
    match parts[..] {
        ["Rattle", "std", ..] => Origin::Library,
        ["Rattle", krate, "specs", "declared", ref rest @ ..] => {
            Origin::Declared(Declared { krate: krate.to_string(), name: declared(rest) })
        }
        ["Rattle", krate, "specs", file] => Origin::Definitions(format!("{krate}/specs/{file}")),
        ["Rattle", ref rest @ ..] => Origin::Other(rest.join("/")),
        [library, ..] if LIBRARIES.contains(&library) => Origin::Library,
        _ => Origin::Other(path.to_string()),
    }
}

/// The struct's own name: before it a file may be named, after it its variants.
fn declared(rest: &[&str]) -> String {
    rest.iter().find(|part| part.starts_with(char::is_uppercase)).copied().unwrap_or_default().to_string()
}

/// The words of a text; comments have none.
pub fn words<'a>(lines: impl IntoIterator<Item = &'a str>) -> BTreeSet<String> {
    let said = lines.into_iter().map(|line| line.split("--").next().unwrap_or(line));
    said.flat_map(|line| line.split(between)).filter(|word| !word.is_empty()).map(str::to_string).collect()
}

fn between(letter: char) -> bool {
    letter.is_whitespace() || "(){};,.λ".contains(letter)
}

/// An operator such as `◌≡◌` or `if◌then◌else◌` appears when all its parts do.
pub fn appears(name: &str, words: &BTreeSet<String>) -> bool {
    let mut parts = name.split(HOLE).filter(|part| !part.is_empty()).peekable();
    parts.peek().is_some() && parts.all(|part| words.contains(part))
}
