//! The refused lines of a schedule, listed shortly: none is left out.

use crate::names;
use std::collections::BTreeMap;

/// A run of refused lines with more entries than this becomes one entry, so that the list
/// stays small beside the picture, whatever the schedule.
const MOST_OF_A_RUN: usize = 500;
/// Characters shown of a line's text.
const MOST_OF_A_LINE: usize = 40;

/// Refused lines that follow each other, and how many got which code.
struct Entry {
    first: usize,
    last: usize,
    codes: BTreeMap<u32, usize>,
    /// The text of a line that stands alone.
    text: String,
}

#[derive(Default)]
pub struct Refused {
    entries: Vec<Entry>,
    /// The first entry of the run that the last one belongs to.
    run: usize,
}

impl Refused {
    /// Lines come in order; `raw` has its LF, if it has one.
    pub fn add(&mut self, line: usize, code: u32, raw: &[u8]) {
        let adjoins = self.entries.last().is_some_and(|entry| entry.last + 1 == line);
        if !adjoins {
            self.run = self.entries.len();
        }
        match self.entries.last_mut().filter(|entry| adjoins && entry.takes(code)) {
            Some(entry) => entry.join(Entry::new(line, code, &[])),
            None => self.entries.push(Entry::new(line, code, raw)),
        }
        if self.entries.len() - self.run > MOST_OF_A_RUN {
            let rest = self.entries.split_off(self.run + 1);
            rest.into_iter().for_each(|entry| self.entries[self.run].join(entry));
        }
    }

    pub fn count(&self) -> usize {
        self.entries.iter().map(|entry| entry.last + 1 - entry.first).sum()
    }

    /// `line 7, "D 3": 22 EMPTY` or `lines 7 to 9: 18 BAD ARGUMENT`; of a long run that is one
    /// entry, how often each code came.
    pub fn texts(&self) -> Vec<String> {
        self.entries.iter().map(Entry::told).collect()
    }
}

impl Entry {
    fn new(line: usize, code: u32, raw: &[u8]) -> Entry {
        Entry { first: line, last: line, codes: BTreeMap::from([(code, 1)]), text: shown(raw) }
    }

    fn takes(&self, code: u32) -> bool {
        self.codes.len() > 1 || self.codes.contains_key(&code)
    }

    fn join(&mut self, next: Entry) {
        self.last = next.last;
        self.text.clear();
        next.codes.into_iter().for_each(|(code, count)| *self.codes.entry(code).or_default() += count);
    }

    fn told(&self) -> String {
        let Entry { first, last, codes, text } = self;
        let lines = if first == last { format!("line {first}, {text}") } else { format!("lines {first} to {last}") };
        let told = |(&code, count): (&u32, &usize)| match codes.len() {
            1 => names::code(code),
            _ => format!("{count} times {}", names::code(code)),
        };
        format!("{lines}: {}", codes.iter().map(told).collect::<Vec<_>>().join(", "))
    }
}

/// In quotation marks, as spaces at its end would not be seen.
fn shown(raw: &[u8]) -> String {
    let end = if raw.ends_with(b"\n") { "" } else { " without its end" };
    let text = names::line_text(raw.strip_suffix(b"\n").unwrap_or(raw)); // ASCII alone
    match text.get(..MOST_OF_A_LINE) {
        Some(part) if part.len() < text.len() => format!("\"{part}\"..{end}"),
        _ => format!("\"{text}\"{end}"),
    }
}
