//! Statements in a file of proofs: where each stands, and in which modules.

use std::ops::Range;

/// A file's lines.
pub struct Proofs<'a> {
    pub lines: Vec<&'a str>,
}

/// A line that begins a definition; `whole` where its body is read too.
struct Head<'a> {
    name: &'a str,
    whole: bool,
}

/// What a reader reads of one statement: its first line, and the spans of it and of the modules around it.
pub struct Statement {
    pub at: usize,
    spans: Vec<Range<usize>>,
}

impl Statement {
    pub fn lines(&self) -> impl Iterator<Item = usize> + '_ {
        self.spans.iter().cloned().flatten()
    }
}

impl<'a> Proofs<'a> {
    pub fn new(text: &'a str) -> Proofs<'a> {
        Proofs { lines: text.lines().collect() }
    }

    pub fn statement(&self, name: &str) -> Option<Statement> {
        let named = |at: &usize| head(self.lines[*at]).is_some_and(|head| head.name == name);
        let at = (0..self.lines.len()).filter(named).find(|&at| self.around(at).is_some())?;
        let headers = self.around(at)?.into_iter().map(|header| self.header(header));
        let spans = headers.chain([self.span(at)]).map(|span| self.comments(span.start)..span.end).collect();
        Some(Statement { at, spans })
    }

    /// The names that the file itself has given before a line, other than inside of proofs.
    pub fn given_before(&self, at: usize) -> impl Iterator<Item = &'a str> + '_ {
        let given = (0..at).filter(|&line| self.around(line).is_some());
        given.filter_map(|line| head(self.lines[line])).map(|head| head.name)
    }

    /// The modules around a line; none where it stands inside of a proof or a record.
    fn around(&self, at: usize) -> Option<Vec<usize>> {
        let mut headers = Vec::new();
        let mut depth = indent(self.lines[at]);
        for line in (0..at).rev().filter(|&line| !is_silent(self.lines[line])) {
            if indent(self.lines[line]) < depth {
                depth = indent(self.lines[line]);
                self.lines[line].trim_start().starts_with("module ").then(|| headers.push(line))?;
            }
        }
        Some(headers)
    }

    /// A module's header, up to its `where`.
    fn header(&self, at: usize) -> Range<usize> {
        let end = (at..self.lines.len()).find(|&line| self.lines[line].trim_end().ends_with("where"));
        at..end.map_or(self.lines.len(), |line| line + 1)
    }

    fn span(&self, at: usize) -> Range<usize> {
        let Head { name, whole } = head(self.lines[at]).expect("a statement has a head");
        let ends =
            |line: &usize| self.lines[*line].trim().is_empty() || (!whole && begins_proof(self.lines[*line], name));
        at..(at + 1..self.lines.len()).find(ends).unwrap_or(self.lines.len())
    }

    /// The first of the comment lines right above.
    fn comments(&self, at: usize) -> usize {
        at - self.lines[..at].iter().rev().take_while(|line| line.trim_start().starts_with("--")).count()
    }
}

fn indent(line: &str) -> usize {
    line.len() - line.trim_start().len()
}

fn is_silent(line: &str) -> bool {
    line.trim().is_empty() || line.trim_start().starts_with("--")
}

fn begins_proof(line: &str, name: &str) -> bool {
    line.split_whitespace().next().is_some_and(|word| word == "unfolding" || word == name)
}

/// `name : ..`, after `pub` and the like; a record or a data type has no colon behind its name.
fn head(line: &str) -> Option<Head<'_>> {
    let mut words = line.split_whitespace().peekable();
    let (mut whole, mut named) = (false, false);
    while let Some(word) = words.next_if(|word| ["pub", "abbrev", "unfoldable", "record", "data"].contains(word)) {
        whole |= word != "pub";
        named |= word == "record" || word == "data";
    }
    let name = words.next()?;
    (named || words.next() == Some(":")).then_some(Head { name, whole })
}
