//! The line of operations: by tag, each write before the reads that show it.
//! It holds if it keeps the order in time and every read shows the last write before it; and then
//! a page can be newer than the one that was asked for only where it became so during the read.

use crate::history::{histories, lines, History, Kind, Operation};
use crate::names;
use crate::tally::counted;
use copy::Tag;
use std::collections::BTreeMap;
use std::fmt;

/// What was found in order.
#[derive(Clone, Copy, PartialEq, Eq, Debug)]
pub struct Checked {
    pub lines: usize,
    pub set_ups: usize,
    pub started: usize,
    /// Finished operations and shown writes that were set in line.
    pub in_line: usize,
}

impl fmt::Display for Checked {
    fn fmt(&self, f: &mut fmt::Formatter<'_>) -> fmt::Result {
        let lines = counted(self.lines as u64, "line");
        let set_ups = counted(self.set_ups as u64, "set-up");
        let in_line = counted(self.in_line as u64, "operation");
        let one_line = if self.set_ups > 1 { "a line for each set-up" } else { "one line" };
        write!(f, "{lines}: numbers, codes and fields are as listed; ")?;
        write!(f, "{set_ups}; {in_line} in {one_line}, of {} started", self.started)
    }
}

/// Checks every answer and every history of a schedule.
pub fn check(input: &[u8], output: &[u8]) -> Result<Checked, String> {
    let all = histories(input, output)?;
    let mut checked = Checked { lines: lines(input).count(), set_ups: all.len(), started: 0, in_line: 0 };
    for history in &all {
        checked.started += history.operations.len();
        checked.in_line += line_of(history)?.len();
    }
    Ok(checked)
}

/// The operations in one line, or why there is none.
pub fn line_of(history: &History) -> Result<Vec<Operation>, String> {
    let mut line = tagged(history)?;
    line.sort_by_key(|operation| (operation.tag, operation.kind == Kind::Read, operation.start));
    keeps_time(&line)?;
    shows_last_write(&line, history.first_word)?;
    newer_than_asked(&line)?;
    Ok(line)
}

/// Finished operations, and unfinished writes that a read has shown.
fn tagged(history: &History) -> Result<Vec<Operation>, String> {
    let finished = history.operations.iter().filter(|operation| operation.tag.is_some());
    let mut line: Vec<Operation> = finished.copied().collect();
    let written = writes_by_tag(&line)?;
    let open = open_writes(history);
    let mut shown: BTreeMap<u32, Operation> = BTreeMap::new();
    for read in line.iter().filter(|operation| operation.kind == Kind::Read) {
        let tag = read.tag.unwrap_or_default();
        if tag == Tag::FIRST || written.contains_key(&tag) {
            continue;
        }
        let write = open.get(&tag.client).ok_or_else(|| format!("{} shows a tag that no write has", told(read)))?;
        let before = shown.insert(tag.client, Operation { tag: read.tag, ..**write });
        if before.is_some_and(|before| before.tag != read.tag) {
            return Err(format!("{}: its unfinished write is shown under two tags", told(read)));
        }
    }
    line.extend(shown.into_values());
    Ok(line)
}

fn writes_by_tag(line: &[Operation]) -> Result<BTreeMap<Tag, &Operation>, String> {
    let mut written = BTreeMap::new();
    for write in line.iter().filter(|operation| operation.kind == Kind::Write) {
        let tag = write.tag.unwrap_or_default();
        if tag.client != write.client {
            return Err(format!("{} ended with tag {}, which has another client", told(write), names::tag(tag)));
        }
        if let Some(before) = written.insert(tag, write) {
            return Err(format!("two writes have one tag: {} and {}", told(before), told(write)));
        }
    }
    Ok(written)
}

/// The write that a read must have seen before the write's end: the open one of the tag's client.
fn open_writes(history: &History) -> BTreeMap<u32, &Operation> {
    let open = |operation: &&Operation| operation.kind == Kind::Write && operation.end.is_none();
    history.operations.iter().filter(open).map(|write| (write.client, write)).collect()
}

/// No operation may stand behind one that started after its end.
fn keeps_time(line: &[Operation]) -> Result<(), String> {
    let mut latest: Option<&Operation> = None;
    for operation in line {
        if let (Some(before), Some(end)) = (latest, operation.end) {
            if end < before.start {
                return Err(format!("{} ended before {} started, yet follows it", told(operation), told(before)));
            }
        }
        if latest.is_none_or(|before| before.start < operation.start) {
            latest = Some(operation);
        }
    }
    Ok(())
}

fn shows_last_write(line: &[Operation], first_word: u32) -> Result<(), String> {
    let mut word = first_word;
    let mut tag = Some(Tag::FIRST);
    for operation in line {
        match operation.kind {
            Kind::Write => (word, tag) = (operation.word, operation.tag),
            Kind::Read if operation.word == word && operation.tag == tag => (),
            Kind::Read => return Err(format!("{} should show {word}", told(operation))),
        }
    }
    Ok(())
}

/// A read asks for the tag of all that ended before it began, or a greater one. It gets one still
/// greater only where that is secured, which no tag is before the end of its write.
fn newer_than_asked(line: &[Operation]) -> Result<(), String> {
    for same in line.chunk_by(|a, b| a.tag == b.tag) {
        let first_ended = same.iter().filter(|operation| operation.end.is_some()).min_by_key(|operation| operation.end);
        let write = &same[0]; // but for the first tag, which no write has
        for read in same.iter().filter(|operation| operation.newer) {
            let why = match first_ended {
                _ if read.tag == Some(Tag::FIRST) => "no tag is lower".to_string(),
                Some(other) if other.end < Some(read.start) => format!("{} ended before it started", told(other)),
                _ if write.end.is_none_or(|end| Some(end) > read.end) => format!("{} had not ended", told(write)),
                _ => continue,
            };
            return Err(format!("{} got a newer tag than it asked for, yet {why}", told(read)));
        }
    }
    Ok(())
}

pub fn told(operation: &Operation) -> String {
    let name = if operation.kind == Kind::Read { "read" } else { "write" };
    let Operation { client, word, start, tag, .. } = operation;
    let tag = tag.unwrap_or_default();
    format!("{name} of client {client} from line {start} with {} {word}", names::tag(tag))
}
