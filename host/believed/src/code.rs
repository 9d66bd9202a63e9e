//! The parts of a file of code that a reader reads: what it declares, and its contracts.

use std::ops::Range;

/// The lines of `pub struct NAME`, `pub enum NAME` or `pub const NAME`, with the comment and the attributes above.
pub fn declared(lines: &[&str], name: &str) -> Option<Range<usize>> {
    let at = lines.iter().position(|line| declares(line, name))?;
    let end = (at..lines.len()).find(|&end| closes(lines[end], end > at))?;
    let above = lines[..at].iter().rev().take_while(|line| line.starts_with("//") || line.starts_with("#[")).count();
    Some(at - above..end + 1)
}

fn declares(line: &str, name: &str) -> bool {
    let rests = ["pub struct ", "pub enum ", "pub const "].iter().find_map(|begin| line.strip_prefix(begin));
    let rest = rests.and_then(|rest| rest.strip_prefix(name));
    rest.is_some_and(|rest| !rest.starts_with(|next: char| next.is_alphanumeric() || next == '_'))
}

fn closes(line: &str, later: bool) -> bool {
    if later {
        line == "}" || line == "};"
    } else {
        line.ends_with(';') || line.ends_with('}')
    }
}

/// For every `pub fn` its lines up to the body; and every trait and every instance of one, whole,
/// since contracts speak by their members.
pub fn contracts(lines: &[&str]) -> Vec<Range<usize>> {
    (0..lines.len()).filter_map(|at| contract(lines, at)).collect()
}

fn contract(lines: &[&str], at: usize) -> Option<Range<usize>> {
    let line = lines[at];
    if line.starts_with("pub fn ") {
        return Some(at..body(lines, at));
    }
    let whole = line.starts_with("pub trait ") || (line.starts_with("impl") && line.contains(" for "));
    let end = (at..lines.len()).find(|&end| closes(lines[end], end > at));
    end.filter(|_| whole).map(|end| at..end + 1)
}

/// The line of the body's brace, or the next one where the brace ends a line.
fn body(lines: &[&str], at: usize) -> usize {
    let brace = (at..lines.len()).find(|&line| lines[line] == "{" || (line == at && lines[line].ends_with('{')));
    brace.map_or(lines.len(), |line| line.max(at + 1))
}
