//! The section of `docs/PROMISES.md` that lists what must be believed.

pub const PROMISES: &str = "docs/PROMISES.md";

const TITLE: &str = "## What must be believed";

/// A file of proofs and the statements of it that are listed.
pub struct Theorems {
    pub file: String,
    pub names: Vec<String>,
}

/// What is listed, in order, and the tokens that name nothing.
#[derive(Default)]
pub struct Section {
    pub text: String,
    pub definitions: Vec<String>,
    pub structs: Vec<String>,
    pub contracts: Vec<String>,
    pub theorems: Vec<Theorems>,
    pub faults: Vec<String>,
}

pub fn read(promises: &str) -> Result<Section, String> {
    let after = promises.lines().skip_while(|line| line.trim_end() != TITLE).skip(1);
    let lines: Vec<&str> = after.take_while(|line| !line.starts_with("## ")).collect();
    if lines.is_empty() {
        return Err(format!("{PROMISES} has no section `{TITLE}`"));
    }
    let mut section = Section { text: lines.join("\n"), ..Section::default() };
    for row in rows(&lines) {
        section.read_row(&cells(row));
    }
    Ok(section)
}

/// The rows of the tables, without what stands above the rule.
fn rows<'a>(lines: &'a [&'a str]) -> impl Iterator<Item = &'a str> {
    let heads = |at: usize| lines.get(at + 1).is_some_and(|next| next.starts_with("|--"));
    (0..lines.len()).filter(move |&at| !heads(at)).map(|at| lines[at])
}

/// The cells of a table's row; none of any other line.
pub fn cells(line: &str) -> Vec<&str> {
    let inside = line.trim().strip_prefix('|').and_then(|rest| rest.strip_suffix('|'));
    inside.map_or(Vec::new(), |inside| inside.split('|').map(str::trim).collect())
}

/// What stands between backticks.
pub fn tokens(text: &str) -> impl Iterator<Item = &str> {
    text.split('`').skip(1).step_by(2)
}

impl Section {
    fn read_row(&mut self, cells: &[&str]) {
        for cell in cells {
            let mut last = None;
            for token in tokens(cell) {
                self.read_token(cells[0], token, last);
                last = if token.contains('/') { Some(token) } else { last };
            }
        }
    }

    /// `kind` is the row's first cell, `last` the path before the token in its cell.
    fn read_token(&mut self, kind: &str, token: &str, last: Option<&str>) {
        let (path, names) = token.split_once(':').unwrap_or((token, ""));
        let parts: Vec<&str> = path.split('/').collect();
        match parts[..] {
            [_, "specs", _] => self.define(path.to_string()),
            [_, "src", _] if kind.starts_with("structs") => once(&mut self.structs, &mut self.faults, path),
            [_, "src", _] if kind.starts_with("the contracts") => once(&mut self.contracts, &mut self.faults, path),
            [_, "proofs", _] if kind.starts_with("the theorems") && !names.is_empty() => self.state(path, names),
            [name] => self.read_short(name, last),
            _ => self.faults.push(format!("`{token}` is listed in the row `{kind}`, where it names nothing")),
        }
    }

    /// A name after a file of definitions stands for another one beside it; else it is a word of the text.
    fn read_short(&mut self, name: &str, last: Option<&str>) {
        let folder = last.and_then(|path| path.rsplit_once('/')).filter(|(folder, _)| folder.ends_with("/specs"));
        if let (Some((folder, _)), true) = (folder, name.starts_with(char::is_uppercase)) {
            self.define(format!("{folder}/{name}"));
        }
    }

    fn define(&mut self, file: String) {
        once(&mut self.definitions, &mut self.faults, &file);
    }

    fn state(&mut self, file: &str, names: &str) {
        let names = names.split(',').map(|name| name.trim().to_string()).filter(|name| !name.is_empty()).collect();
        if self.theorems.iter().any(|listed| listed.file == file) {
            self.faults.push(format!("`{file}` is listed twice"));
        } else {
            self.theorems.push(Theorems { file: file.to_string(), names });
        }
    }
}

fn once(list: &mut Vec<String>, faults: &mut Vec<String>, file: &str) {
    if list.iter().any(|listed| listed == file) {
        faults.push(format!("`{file}` is listed twice"));
    } else {
        list.push(file.to_string());
    }
}
