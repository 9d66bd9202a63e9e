//! A schedule told line by line: what was asked, what came of it, and which rows moved.

use crate::history::raw_lines;
use crate::meaning::{malformed, meaning};
use crate::names::line_text;
use crate::view;
use crate::words::{self, Sentence};
use copy::answer::BAD_ARGUMENT;
use copy::layout::*;
use copy::line::{parse, Call};
use copy::mail::Message;
use copy::{Numbers, Rehearsal, Words};
use std::fmt;

/// One line of a schedule, told.
#[derive(Clone, PartialEq, Eq, Debug)]
pub struct Line {
    pub number: usize,
    pub text: String,
    pub code: u32,
    /// "21 WORN: client 1 has fewer than three message numbers left".
    pub meaning: String,
    /// The message delivered, the rows changed, the messages sent.
    pub details: Vec<String>,
}

impl fmt::Display for Line {
    fn fmt(&self, f: &mut fmt::Formatter<'_>) -> fmt::Result {
        writeln!(f, "{}: {} -> {}", self.number, self.text, self.meaning)?;
        self.details.iter().try_for_each(|detail| writeln!(f, "    {detail}"))
    }
}

/// Runs a schedule and tells each line as it comes.
#[derive(Default)]
pub struct Teller {
    machine: Rehearsal,
    lines: usize,
}

impl Teller {
    pub fn new() -> Teller {
        Teller::default()
    }

    pub fn words(&self) -> &Words {
        self.machine.words()
    }

    /// One line with its LF, if it has one.
    pub fn take(&mut self, raw: &[u8]) -> Line {
        self.lines += 1;
        let line = raw.strip_suffix(b"\n");
        let (code, meaning, details) = match line.and_then(|line| Some((line, parse(line)?))) {
            Some((line, call)) => self.run(line, call),
            None => (BAD_ARGUMENT, malformed(line), Vec::new()),
        };
        Line { number: self.lines, text: line_text(line.unwrap_or(raw)), code, meaning, details }
    }

    /// Runs one line without telling it.
    pub fn skip(&mut self, raw: &[u8]) {
        self.lines += 1;
        if let Some(line) = raw.strip_suffix(b"\n") {
            self.machine.step(line);
        }
    }

    fn run(&mut self, line: &[u8], call: Call) -> (u32, String, Vec<String>) {
        let before: Box<Words> = self.words().into();
        let shown = self.machine.step(line);
        let details = if shown.answer.accepted() {
            details(&before, self.words(), call)
        } else {
            arrived(&before, call).map(|message| format!("not delivered: {message}")).into_iter().collect()
        };
        (shown.answer.code, meaning(&before, call, &shown), details)
    }
}

/// The machine in words after line number `last`, counted from 1, under the line itself.
pub fn machine_after(input: &[u8], last: usize) -> Result<String, String> {
    let mut teller = Teller::new();
    let mut lines = raw_lines(input);
    let before = last.checked_sub(1).ok_or("lines count from 1")?;
    lines.by_ref().take(before).for_each(|raw| teller.skip(raw));
    match lines.next() {
        Some(raw) => Ok(format!("{}{}", teller.take(raw), in_words(teller.words()))),
        None => Err(format!("there is no line {last}: the schedule has {}", raw_lines(input).count())),
    }
}

fn in_words(m: &Words) -> String {
    let sentences = words::machine(m);
    if sentences.is_empty() {
        return "no set-up has been accepted yet\n".to_string();
    }
    sentences.iter().map(|sentence| sentence.told() + "\n").collect()
}

fn details(before: &Words, after: &Words, call: Call) -> Vec<String> {
    if let Call::SetUp { .. } = call {
        return Vec::new(); // everything is new
    }
    let slot = if let Call::Deliver { slot } = call { slot } else { 0 };
    let arrived = arrived(before, call).map(|message| format!("delivered: {message}"));
    arrived.into_iter().chain(rows(before, after)).chain(mail(before, after, slot)).collect()
}

fn arrived(before: &Words, call: Call) -> Option<String> {
    view::arriving(before, call).map(|message| words::sent(&message, bit(message.to)))
}

fn rows(before: &Words, after: &Words) -> Vec<String> {
    let changed = changed(before, after);
    if changed.is_empty() {
        return vec!["changed: no row".to_string()];
    }
    changed.iter().map(|row| format!("changed: {}", row.told())).collect()
}

/// The rows of parties that are not as they were.
fn changed(before: &Words, after: &Words) -> Vec<Sentence> {
    let all = words::rows(&Numbers::read(after));
    all.filter(|&(party, id)| words_of(before, party, id) != words_of(after, party, id))
        .map(|(party, id)| words::row(after, party, id))
        .collect()
}

/// A party's flag and its row or entries.
fn words_of(m: &Words, party: Party, id: u32) -> (u32, &[u32]) {
    let (at, length) = match party {
        Party::Client => (client_at(id), CLIENT_ROW),
        Party::Directory => (directory_at(id), DIRECTORY_ROW),
        Party::Replica => (entries_at(m, id), ENTRIES * ENTRY_ROW),
    };
    (m[down_at(m, party, id)], &m[at..at + length])
}

/// Messages that are gone but for the delivered one, and messages that were not there.
pub fn mail(before: &Words, after: &Words, delivered: u32) -> Vec<String> {
    let new_in = |m: &Words, other: &Words| -> Vec<(u32, Message)> {
        let waiting = view::waiting(m).into_iter().filter_map(|slot| Some((slot, view::message(m, slot)?)));
        waiting.filter(|&(slot, message)| slot == delivered || view::message(other, slot) != Some(message)).collect()
    };
    let lost = new_in(before, after).into_iter().filter(|(slot, _)| *slot != delivered);
    let lost = lost.map(|(slot, message)| format!("lost: {}, in slot {slot}", words::sent(&message, bit(message.to))));
    lost.chain(together(&new_in(after, before))).collect()
}

/// Messages that differ in the receiver alone are told together.
fn together(sent: &[(u32, Message)]) -> Vec<String> {
    let mut groups: Vec<(Message, u32, Vec<u32>)> = Vec::new();
    for (slot, message) in sent {
        let common = Message { to: 0, ..*message };
        match groups.iter_mut().find(|(other, ..)| *other == common) {
            Some((_, receivers, slots)) => {
                *receivers |= bit(message.to);
                slots.push(*slot);
            }
            None => groups.push((common, bit(message.to), vec![*slot])),
        }
    }
    let told = |(message, receivers, slots): &(Message, u32, Vec<u32>)| {
        format!("sent: {}, in {}", words::sent(message, *receivers), in_slots(slots))
    };
    groups.iter().map(told).collect()
}

/// "slot 3", "slots 3, 4, 7".
pub fn in_slots(slots: &[u32]) -> String {
    let all: Vec<String> = slots.iter().map(u32::to_string).collect();
    format!("slot{} {}", if all.len() == 1 { "" } else { "s" }, all.join(", "))
}
