//! Lines in, lines out: what the rehearsal program does, fed in pieces of any size.

use crate::answer::{Answer, BAD_ARGUMENT, READ_ENDED};
use crate::layout::{Layout, Page, Words, PAGE};
use crate::line::{self, Call};
use crate::machine;

/// What one line prints behind its number.
#[derive(Clone, Copy, PartialEq, Eq, Debug)]
pub struct Shown {
    pub answer: Answer,
    pub word: u32,
}

pub struct Rehearsal {
    base: Box<Words>,
    wide: Box<Words>,
    /// The machine of the last accepted set-up; base's before the first.
    in_force: Layout,
    lines: u64,
    /// The start of a line whose LF has not come; one byte over the limit is enough to keep.
    held: Vec<u8>,
}

impl Default for Rehearsal {
    fn default() -> Self {
        let zeros = |layout: Layout| vec![0; layout.words()].into_boxed_slice();
        Rehearsal {
            base: zeros(Layout::Base),
            wide: zeros(Layout::Wide),
            in_force: Layout::Base,
            lines: 0,
            held: Vec::with_capacity(line::LONGEST + 1),
        }
    }
}

impl Rehearsal {
    pub fn new() -> Rehearsal {
        Rehearsal::default()
    }

    /// The machine in force.
    pub fn words(&self) -> &Words {
        match self.in_force {
            Layout::Base => &self.base,
            Layout::Wide => &self.wide,
        }
    }

    /// Takes the next bytes of the input and appends the lines that they finish.
    pub fn feed(&mut self, mut bytes: &[u8], out: &mut Vec<u8>) {
        while let Some(end) = bytes.iter().position(|&byte| byte == b'\n') {
            let shown = self.whole_line(&bytes[..end]);
            self.print(shown, out);
            bytes = &bytes[end + 1..];
        }
        self.hold(bytes);
    }

    /// The input is over: a last line without LF is malformed whatever it says.
    pub fn finish(&mut self, out: &mut Vec<u8>) {
        if !self.held.is_empty() {
            self.held.clear();
            self.print(malformed(), out);
        }
    }

    /// Runs one line, given without its LF; prints nothing and counts nothing.
    pub fn step(&mut self, line: &[u8]) -> Shown {
        line::parse(line).map_or_else(malformed, |call| self.call(call))
    }

    /// A set-up asks the array of its own layout, and comes into force if accepted.
    fn call(&mut self, call: Call) -> Shown {
        let asked = match call {
            Call::SetUp { layout, .. } => layout,
            _ => self.in_force,
        };
        let words = match asked {
            Layout::Base => &mut self.base,
            Layout::Wide => &mut self.wide,
        };
        let shown = run(words, call);
        if shown.answer.accepted() {
            self.in_force = asked;
        }
        shown
    }

    fn whole_line(&mut self, end: &[u8]) -> Shown {
        if self.held.is_empty() {
            return self.step(end);
        }
        self.hold(end);
        let line = std::mem::take(&mut self.held);
        let shown = self.step(&line);
        self.held = line;
        self.held.clear();
        shown
    }

    fn hold(&mut self, bytes: &[u8]) {
        let room = (line::LONGEST + 1).saturating_sub(self.held.len());
        self.held.extend_from_slice(&bytes[..bytes.len().min(room)]);
    }

    fn print(&mut self, shown: Shown, out: &mut Vec<u8>) {
        self.lines += 1;
        let Shown { answer, word } = shown;
        decimal(self.lines, out);
        for field in [answer.code, answer.client, answer.tag.number, answer.tag.client, word, answer.mark] {
            out.push(b' ');
            decimal(u64::from(field), out);
        }
        out.push(b'\n');
    }
}

fn malformed() -> Shown {
    Shown { answer: Answer::bare(BAD_ARGUMENT), word: 0 }
}

/// A page whose words behind the first are zero.
pub fn page_of(word: u32) -> Page {
    let mut page = [0; PAGE];
    page[0] = word;
    page
}

/// One call on a machine's words.
pub fn run(words: &mut Words, call: Call) -> Shown {
    let here = Layout::of(words);
    let mut page = [0; PAGE];
    let answer = match call {
        Call::SetUp { numbers, word, .. } => machine::set_up(here, words, numbers, &page_of(word)),
        Call::Read { client } => machine::start_read(here, words, client),
        Call::Write { client, word } => machine::start_write(here, words, client, &page_of(word)),
        Call::Deliver { slot } => machine::deliver(here, words, slot, &mut page),
        Call::Gossip { from, to } => machine::gossip(here, words, from, to),
        Call::Tidy { replica } => machine::tidy(here, words, replica),
        Call::Crash { kind, id } => machine::crash(here, words, kind, id),
    };
    let word = if answer.code == READ_ENDED { page[0] } else { 0 };
    Shown { answer, word }
}

fn decimal(mut value: u64, out: &mut Vec<u8>) {
    if value < 10 {
        out.push(b'0' + value as u8);
        return;
    }
    let mut digits = [0; 20];
    let mut at = digits.len();
    while value > 0 {
        at -= 1;
        digits[at] = b'0' + (value % 10) as u8;
        value /= 10;
    }
    out.extend_from_slice(&digits[at..]);
}
