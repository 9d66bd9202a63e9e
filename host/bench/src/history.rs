//! From lines and answers to operations.

use crate::allowed::called;
use crate::names;
pub use crate::printed::Printed;
use copy::answer::{DONE, NEWER, READ_ENDED, WRITE_ENDED, WRITE_SPENT};
use copy::line::Call;
use copy::{Numbers, Tag};

#[derive(Clone, Copy, PartialEq, Eq, Debug)]
pub enum Kind {
    Read,
    Write,
}

/// One operation; `start` and `end` are line numbers.
#[derive(Clone, Copy, PartialEq, Eq, Debug)]
pub struct Operation {
    pub client: u32,
    pub kind: Kind,
    /// The word written, or the word that a finished read showed.
    pub word: u32,
    pub start: usize,
    pub end: Option<usize>,
    /// Known from the answer that ended it.
    pub tag: Option<Tag>,
    pub spent: bool,
    /// A finished read that got a newer page than it asked for.
    pub newer: bool,
}

/// All between one accepted set-up and the next.
#[derive(Clone, PartialEq, Eq, Debug)]
pub struct History {
    pub numbers: Numbers,
    pub first_word: u32,
    pub operations: Vec<Operation>,
}

/// Lines of a text; a last one without LF counts.
pub fn lines(text: &[u8]) -> impl Iterator<Item = &[u8]> {
    raw_lines(text).map(|line| line.strip_suffix(b"\n").unwrap_or(line))
}

/// Lines of a text with their LF: one that has none is no whole line.
pub fn raw_lines(text: &[u8]) -> impl Iterator<Item = &[u8]> {
    text.split_inclusive(|&byte| byte == b'\n')
}

pub fn histories(input: &[u8], output: &[u8]) -> Result<Vec<History>, String> {
    let mut all = Vec::new();
    let mut answers = raw_lines(output);
    let mut number = 0;
    for line in raw_lines(input) {
        number += 1;
        let raw = answers.next().ok_or_else(|| format!("line {number} has no answer"))?;
        let answer = Printed::answer(number, raw)?;
        take(&mut all, line, answer).map_err(|why| format!("line {number}: {why}"))?;
    }
    match answers.next() {
        Some(_) => Err(format!("answer {} answers no line", number + 1)),
        None => Ok(all),
    }
}

fn take(all: &mut Vec<History>, raw: &[u8], answer: Printed) -> Result<(), String> {
    let machine = all.last().map(|history| &history.numbers);
    let call = called(raw, machine, answer.code)?;
    if let (Some(Call::SetUp { numbers, word, .. }), DONE) = (call, answer.code) {
        all.push(History { numbers, first_word: word, operations: Vec::new() });
        return Ok(());
    }
    let Some(history) = all.last_mut() else { return Ok(()) };
    match (call, answer.code) {
        (Some(Call::Read { client }), DONE) => history.begin(client, Kind::Read, 0, answer.line),
        (Some(Call::Write { client, word }), DONE) => history.begin(client, Kind::Write, word, answer.line),
        (_, READ_ENDED..=WRITE_SPENT) => history.end(answer),
        _ => Ok(()),
    }
}

impl History {
    /// The search is short: the numbers have 8 clients at most, and only they start.
    fn open(&mut self, client: u32) -> Option<&mut Operation> {
        let last = self.operations.iter_mut().rev().find(|operation| operation.client == client)?;
        last.end.is_none().then_some(last)
    }

    fn begin(&mut self, client: u32, kind: Kind, word: u32, start: usize) -> Result<(), String> {
        if self.open(client).is_some() {
            return Err(format!("client {client} starts while not idle"));
        }
        let (end, tag, spent, newer) = (None, None, false, false);
        self.operations.push(Operation { client, kind, word, start, end, tag, spent, newer });
        Ok(())
    }

    fn end(&mut self, answer: Printed) -> Result<(), String> {
        let client = answer.client;
        if answer.tag.number > self.numbers.top {
            return Err(format!("the tag {} is above top {}", names::tag(answer.tag), self.numbers.top));
        }
        let operation = self.open(client).ok_or_else(|| format!("client {client} ends what it did not start"))?;
        let kind = if answer.code == READ_ENDED { Kind::Read } else { Kind::Write };
        if operation.kind != kind {
            return Err(format!("client {client} ends another kind than it started"));
        }
        operation.end = Some(answer.line);
        operation.spent = answer.code == WRITE_SPENT;
        if answer.code == READ_ENDED {
            operation.word = answer.word;
            operation.newer = answer.mark == NEWER;
        }
        if answer.code == READ_ENDED || answer.code == WRITE_ENDED {
            operation.tag = Some(answer.tag);
        }
        Ok(())
    }
}
