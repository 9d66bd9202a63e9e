//! A schedule by messages instead of slots: when a line is left out, the mail behind it moves
//! to other slots, and a delivery must follow its message there.

use crate::history::raw_lines;
use crate::view;
use copy::layout::SLOTS;
use copy::line::{parse, Call};
use copy::mail::Message;
use copy::{Rehearsal, Words};

#[derive(Clone, Copy, Debug)]
pub enum Step<'a> {
    /// A line as it stands, with its LF if it has one.
    Line(&'a [u8]),
    Deliver(Letter),
}

/// Kind, sender, receiver, tag, set word and message number. The tag tells the page.
pub type Letter = [u32; 7];

fn letter(m: &Words, slot: u32) -> Option<Letter> {
    let Message { kind, from, to, tag, set, number, .. } = view::message(m, slot)?;
    Some([kind, from, to, tag.number, tag.client, set, number])
}

pub fn steps(input: &[u8]) -> Vec<Step<'_>> {
    let mut machine = Rehearsal::new();
    let next = |raw| {
        let step = step(machine.words(), raw);
        take(&mut machine, raw);
        step
    };
    raw_lines(input).map(next).collect()
}

fn step<'a>(m: &Words, raw: &'a [u8]) -> Step<'a> {
    let call = raw.strip_suffix(b"\n").and_then(parse);
    match call {
        Some(Call::Deliver { slot: slot @ 1..=128 }) => letter(m, slot).map_or(Step::Line(raw), Step::Deliver),
        _ => Step::Line(raw),
    }
}

fn take(machine: &mut Rehearsal, raw: &[u8]) {
    if let Some(line) = raw.strip_suffix(b"\n") {
        machine.step(line);
    }
}

/// The lines of some steps, and the steps that have one: a delivery whose message is gone has none.
pub fn concrete<'a>(steps: &[Step<'a>]) -> (Vec<u8>, Vec<Step<'a>>) {
    let mut machine = Rehearsal::new();
    let mut out = Vec::new();
    let mut live = Vec::with_capacity(steps.len());
    for step in steps {
        let begin = out.len();
        match step {
            Step::Line(raw) => out.extend_from_slice(raw),
            Step::Deliver(wanted) => match find(machine.words(), wanted) {
                Some(slot) => out.extend_from_slice(format!("D {slot}\n").as_bytes()),
                None => continue,
            },
        }
        live.push(*step);
        take(&mut machine, &out[begin..]);
    }
    (out, live)
}

/// The same message, or one of its kind between the same parties: numbers shrink too.
fn find(m: &Words, wanted: &Letter) -> Option<u32> {
    let waiting = (1..=SLOTS as u32).filter_map(|slot| Some((slot, letter(m, slot)?)));
    let mut alike = waiting.filter(|(_, other)| other[..3] == wanted[..3]).peekable();
    let first = alike.peek().map(|(slot, _)| *slot);
    alike.find(|(_, other)| other == wanted).map(|(slot, _)| slot).or(first)
}
