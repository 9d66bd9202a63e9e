//! What happened in a schedule, call by call: the matter of a picture.

use crate::history::{histories, raw_lines, History, Operation};
use crate::meaning::read_ended;
use crate::refused::Refused;
use crate::underway::{Arrow, Fate, Underway};
use crate::view;
use copy::answer::{BAD_ARGUMENT, DROPPED, NEWER, READ_ENDED, SIZE, STALE};
use copy::client::Client;
use copy::layout::{ends, Party, READ_OK};
use copy::line::{parse, Call};
use copy::mail::Message;
use copy::{Numbers, Rehearsal, Shown, Tag, Words};
use std::collections::BTreeMap;

/// A mark on a party's lane.
#[derive(Clone, Copy, Debug)]
pub struct Mark {
    pub party: Party,
    pub id: u32,
    pub column: usize,
}

/// An accepted line.
pub struct Accepted {
    pub line: usize,
    pub text: String,
}

/// A machine lasts from the column of its set-up to that of the next.
pub struct Machine {
    pub column: usize,
    pub numbers: Numbers,
}

#[derive(Default)]
pub struct Story {
    /// One a column.
    pub calls: Vec<Accepted>,
    pub refused: Refused,
    pub arrows: Vec<Arrow>,
    pub crashes: Vec<Mark>,
    pub tidied: Vec<Mark>,
    /// Each has its history, at the same place.
    pub machines: Vec<Machine>,
    pub histories: Vec<History>,
    /// What `tell` says of each read that got a newer tag than it had asked for, by its last line.
    newer: BTreeMap<usize, String>,
    underway: Underway,
}

pub fn story(input: &[u8]) -> Result<Story, String> {
    let mut story = Story::default();
    let mut machine = Rehearsal::new();
    for (index, raw) in raw_lines(input).enumerate() {
        story.take(&mut machine, index + 1, raw);
    }
    story.arrows.extend(story.underway.leave(story.calls.len()));
    story.histories = histories(input, &crate::compare::copy_output(input))?;
    Ok(story)
}

impl Story {
    /// The column of an accepted line; of another, that of the last one before it.
    pub fn column(&self, line: usize) -> Option<usize> {
        self.calls.partition_point(|call| call.line <= line).checked_sub(1)
    }

    /// The column behind the last one of the machine at `column`.
    pub fn end_of(&self, column: usize) -> usize {
        self.machines.get(self.machine_after(column)).map_or(self.calls.len(), |machine| machine.column)
    }

    /// The numbers of the machine at `column`.
    pub fn numbers_at(&self, column: usize) -> &Numbers {
        &self.machines[self.machine_after(column) - 1].numbers
    }

    /// What is said of a read that got a newer tag than it had asked for; of no other operation.
    pub fn newer(&self, operation: &Operation) -> Option<&str> {
        self.newer.get(&operation.end?).map(String::as_str)
    }

    fn machine_after(&self, column: usize) -> usize {
        self.machines.partition_point(|machine| machine.column <= column)
    }

    fn take(&mut self, machine: &mut Rehearsal, number: usize, raw: &[u8]) {
        let line = raw.strip_suffix(b"\n");
        let call = line.and_then(parse);
        let asked = call.and_then(|call| asked(machine.words(), call));
        let shown = line.map(|line| machine.step(line));
        let code = shown.map_or(BAD_ARGUMENT, |shown| shown.answer.code);
        if let Some((shown, asked)) = shown.filter(got_newer).zip(asked) {
            self.newer.insert(number, read_ended(&shown, asked));
        }
        match call {
            Some(call) if code < SIZE => {
                let text = String::from_utf8_lossy(line.unwrap_or_default()).into_owned();
                self.accept(call, code, machine.words());
                self.calls.push(Accepted { line: number, text });
            }
            _ => self.refused.add(number, code, raw),
        }
    }

    fn accept(&mut self, call: Call, code: u32, m: &Words) {
        let column = self.calls.len();
        self.mark(call, column, m);
        let delivered = match call {
            Call::Deliver { slot } => Some((slot, fate(code))),
            _ => None,
        };
        self.arrows.extend(self.underway.step(m, column, delivered));
    }

    fn mark(&mut self, call: Call, column: usize, m: &Words) {
        match call {
            Call::SetUp { .. } => {
                // A new machine forgets the mail of the one before it.
                self.arrows.extend(self.underway.leave(column));
                self.machines.push(Machine { column, numbers: Numbers::read(m) });
            }
            Call::Tidy { replica } => self.tidied.push(Mark { party: Party::Replica, id: replica, column }),
            Call::Crash { kind, id } => {
                self.crashes.extend(view::party_of(kind).map(|party| Mark { party, id, column }));
            }
            _ => (),
        }
    }
}

/// The tag that the receiver of a read-ok wants; the row forgets it when the read ends.
fn asked(m: &Words, call: Call) -> Option<Tag> {
    let reply = view::arriving(m, call).filter(|message| message.kind == READ_OK)?;
    Some(Client::read(m, reply.to).tag)
}

fn got_newer(shown: &Shown) -> bool {
    shown.answer.code == READ_ENDED && shown.answer.mark == NEWER
}

/// What became of a delivered message.
fn fate(code: u32) -> Fate {
    match code {
        DROPPED => Fate::Dropped,
        STALE => Fate::Stale,
        _ => Fate::Taken,
    }
}

pub fn ends_of(message: &Message) -> ((Party, u32), (Party, u32)) {
    let (from, to) = ends(message.kind);
    ((from, message.from), (to, message.to))
}
