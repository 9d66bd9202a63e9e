//! Counts of files, and their sums as they are printed.

/// What one file has: its things (structs, parts of contracts, statements), their lines, and how many lines are kept.
pub struct Count {
    pub file: String,
    pub things: usize,
    pub lines: usize,
    pub kept: usize,
}

/// The counts of one kind and the words that they are printed in.
pub struct Group {
    name: &'static str,
    thing: Option<&'static str>,
    counts: Vec<Count>,
}

impl Group {
    pub fn definitions(counts: Vec<Count>) -> Group {
        Group { name: "definitions", thing: None, counts }
    }

    pub fn structs(counts: Vec<Count>) -> Group {
        Group { name: "structs and enums", thing: Some(""), counts }
    }

    pub fn contracts(counts: Vec<Count>) -> Group {
        Group { name: "contracts", thing: Some("part"), counts }
    }

    pub fn theorems(counts: Vec<Count>) -> Group {
        Group { name: "theorems", thing: Some("statement"), counts }
    }

    /// The sum, after a line for each file where they are wanted.
    pub fn text(&self, files: bool) -> String {
        let wanted = self.counts.iter().filter(|_| files);
        let lines: String = wanted.map(|count| format!("    {}\n", self.line(count))).collect();
        format!("{lines}{}\n", self.sum())
    }

    pub fn sum(&self) -> String {
        let total = |part: fn(&Count) -> usize| self.counts.iter().map(part).sum();
        let (things, lines, kept) = (total(|c| c.things), total(|c| c.lines), total(|c| c.kept));
        let files = many(self.counts.len(), "file");
        let begin = match self.thing {
            Some(thing) => format!("{}: {} in {files}", self.name, many(things, thing)),
            None => format!("{}: {files}", self.name),
        };
        format!("{begin}, {}", self.measure(lines, kept))
    }

    fn line(&self, count: &Count) -> String {
        let things = self.thing.map_or(String::new(), |thing| format!("{}, ", many(count.things, thing)));
        format!("{}: {things}{}", count.file, self.measure(count.lines, count.kept))
    }

    /// Of definitions the lines that say something are counted too.
    fn measure(&self, lines: usize, kept: usize) -> String {
        let lines = many(lines, "line");
        match self.thing {
            Some(_) => lines,
            None => format!("{lines}, {kept} of them neither blank nor `use`"),
        }
    }
}

/// `1 line`, `2 lines`; the number alone where the thing has no word.
fn many(number: usize, thing: &str) -> String {
    match (thing, number) {
        ("", _) => number.to_string(),
        (_, 1) => format!("1 {thing}"),
        _ => format!("{number} {thing}s"),
    }
}
