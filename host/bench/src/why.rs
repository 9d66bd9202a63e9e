//! Why an operation is open: whether the boat's troubles hold it up, or something of ours.

use crate::columns::{columns, height};
use crate::ending::{shortest, Ending, TRIES};
use crate::names::doing;
use crate::open::{enough, Enough, Open};
use crate::premises::{failing, Premise};
use crate::tally::counted;
use copy::client::Client;
use copy::layout::CLIENTS;
use copy::line::{parse, Call};
use copy::{Numbers, Rehearsal, Words};
use std::cmp::Reverse;
use std::fmt::Write;

/// What is printed, and whether some operation is ours to answer for.
#[derive(Clone, PartialEq, Eq, Debug)]
pub struct Told {
    pub text: String,
    pub ours: bool,
}

/// One open operation, with what was found out about it.
#[derive(Clone, PartialEq, Eq, Debug)]
pub struct Explained {
    pub open: Open,
    /// The line that started it.
    pub since: usize,
    pub failing: Vec<Premise>,
    pub ending: Ending,
}

#[derive(Clone, PartialEq, Eq, Debug)]
pub enum Verdict {
    NothingStopsIt,
    EndsAllTheSame,
    TheBoat,
    Ours(String),
}

/// The end of a schedule.
pub struct End {
    machine: Rehearsal,
    set_up: bool,
    /// The line of each client's last accepted start.
    starts: [usize; CLIENTS],
}

impl Told {
    pub fn status(&self) -> Result<(), String> {
        if self.ours {
            Err("an operation is open and no premise says why".to_string())
        } else {
            Ok(())
        }
    }
}

pub fn why(input: &[u8]) -> Told {
    let end = end(input);
    if !end.set_up {
        return Told { text: "no set-up was accepted\n".to_string(), ours: false };
    }
    tell(&explain(end.words(), &end.starts, TRIES))
}

/// Runs a schedule. A last line without LF is malformed, and such lines change nothing.
pub fn end(input: &[u8]) -> End {
    let mut end = End { machine: Rehearsal::new(), set_up: false, starts: [0; CLIENTS] };
    for (index, line) in input.split_inclusive(|&byte| byte == b'\n').enumerate() {
        if let Some(line) = line.strip_suffix(b"\n") {
            end.take(line, index + 1);
        }
    }
    end
}

impl End {
    fn take(&mut self, line: &[u8], number: usize) {
        if !self.machine.step(line).answer.accepted() {
            return;
        }
        match parse(line) {
            Some(Call::SetUp { .. }) => self.set_up = true,
            Some(Call::Read { client } | Call::Write { client, .. }) => self.starts[client as usize - 1] = number,
            _ => (),
        }
    }

    pub fn words(&self) -> &Words {
        self.machine.words()
    }

    pub fn starts(&self) -> &[usize; CLIENTS] {
        &self.starts
    }
}

/// Each operation that is open in a machine.
pub fn explain(m: &Words, starts: &[usize; CLIENTS], tries: usize) -> Vec<Explained> {
    let open = (1..=Numbers::read(m).nc).filter_map(|client| Open::of(m, client));
    open.map(|open| Explained {
        open,
        since: starts[open.client as usize - 1],
        failing: failing(m, &open),
        ending: shortest(m, open.client, tries),
    })
    .collect()
}

pub fn tell(all: &[Explained]) -> Told {
    if all.is_empty() {
        return Told { text: "no operation is open\n".to_string(), ours: false };
    }
    let ours = |one: &Explained| matches!(one.verdict(), Verdict::Ours(_));
    Told { text: all.iter().map(Explained::text).collect(), ours: all.iter().any(ours) }
}

/// By the theorem, read on from where the operation is, one that no premise stops is ended by
/// just so many deliveries as are left. Where that is not so, the machine is wrong, or this program.
pub fn verdict(failing: &[Premise], ending: &Ending, left: u32) -> Verdict {
    match ending {
        Ending::Refuted(list) => {
            Verdict::Ours(format!("{} seemed to end it and do not when they are run again", listed(list)))
        }
        Ending::Found(_) | Ending::Long(..) if !failing.is_empty() => Verdict::EndsAllTheSame,
        Ending::Found(list) if list.len() as u32 == left => Verdict::NothingStopsIt,
        Ending::Found(list) | Ending::Long(list, _) => {
            Verdict::Ours(format!("no premise fails, and it takes {} deliveries: {}", list.len(), listed(list)))
        }
        _ if !failing.is_empty() => Verdict::TheBoat,
        Ending::None => Verdict::Ours("no premise fails, yet no deliveries can end it".to_string()),
        Ending::NotWithin(tries) => {
            Verdict::Ours(format!("no premise fails, yet no deliveries that end it were found within {tries} tries"))
        }
    }
}

impl Explained {
    pub fn verdict(&self) -> Verdict {
        verdict(&self.failing, &self.ending, self.open.left())
    }

    pub fn text(&self) -> String {
        let mut text = self.heading();
        for premise in &self.failing {
            let _ = writeln!(text, "  fails: {premise}");
        }
        if self.failing.is_empty() {
            text.push_str("  no premise fails\n");
        }
        let _ = writeln!(text, "  {}; {}", self.outcome(), self.price());
        text
    }

    fn heading(&self) -> String {
        let Open { client, row, numbers, .. } = &self.open;
        let (name, doing) = (self.name(), doing(row.phase));
        let (since, heard) = (self.since, heard(row, numbers));
        format!("client {client}: {name}, open since line {since}, phase {}, {doing}; {heard}\n", row.phase)
    }

    fn name(&self) -> &'static str {
        if self.open.is_read() {
            "read"
        } else {
            "write"
        }
    }

    fn outcome(&self) -> String {
        let (list, note) = match &self.ending {
            Ending::Found(list) => (list.as_slice(), String::new()),
            Ending::Long(list, tries) => {
                (list.as_slice(), format!(" (the shortest was not found within {tries} tries)"))
            }
            _ => (&[][..], String::new()),
        };
        let end = if list.len() == 1 { "delivery ends" } else { "deliveries end" };
        match self.verdict() {
            Verdict::NothingStopsIt => format!("{} {end} it: {}", list.len(), listed(list)),
            Verdict::EndsAllTheSame => format!("{} {end} it all the same{note}: {}", list.len(), listed(list)),
            Verdict::TheBoat => format!("the boat's fault: {}", not_found(&self.ending)),
            Verdict::Ours(what) => format!("OURS: {what}"),
        }
    }

    fn price(&self) -> String {
        let sum = match (self.open.numbers.columns, self.open.is_read()) {
            (0, true) => "2rq + 2wq + 2",
            (0, false) => "2rq + 2wq + 2f + 2",
            (_, true) => "2 * column height + 2 * columns + 2",
            (_, false) => "2 * column height + 2 * columns + 2f + 2",
        };
        let (name, whole, left) = (self.name(), self.open.whole(), self.open.left());
        format!(
            "by the theorem a whole {name} takes {sum} = {whole}, of which {left} {} left",
            if left == 1 { "is" } else { "are" }
        )
    }
}

/// What has answered, of what the phase must hear; of the columns to be whole, the fullest.
fn heard(row: &Client, n: &Numbers) -> String {
    let answered = row.answered;
    match enough(row.phase, n) {
        Enough::Count(wanted) => format!("{} of {wanted} answered", answered.count_ones()),
        Enough::WholeColumn => {
            let in_column = |(j, column): (u32, u32)| ((answered & column).count_ones(), Reverse(j));
            let (most, Reverse(j)) = columns(n).map(in_column).max().unwrap_or_default();
            let column = if most == 0 { "every column".to_string() } else { format!("column {j}") };
            format!("{most} of {} answered in {column}", height(n))
        }
        Enough::EachColumn => {
            let met = columns(n).filter(|(_, column)| answered & column != 0).count();
            format!("{met} of {} answered", counted(u64::from(n.columns), "column"))
        }
    }
}

fn not_found(ending: &Ending) -> String {
    match ending {
        Ending::NotWithin(tries) => format!("no deliveries that end it were found within {tries} tries"),
        _ => "no deliveries can end it".to_string(),
    }
}

/// As lines of a schedule, but for their ends.
fn listed(list: &[u32]) -> String {
    list.iter().map(|slot| format!("D {slot}")).collect::<Vec<_>>().join(", ")
}
