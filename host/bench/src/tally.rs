//! How often each code and each mark came on each of the two machines, to see that the schedules go deep.

use crate::history::{lines, raw_lines, Printed};
use copy::answer::{DONE, NEWER, READ_ENDED, WRITE_ENDED};
use copy::line::{parse, Call};
use copy::Layout;
use std::fmt;

#[derive(Clone, Copy, PartialEq, Eq, Debug, Default)]
pub struct Tally {
    pub base: Sort,
    pub wide: Sort,
    pub schedules: u64,
    /// Finished operations and shown writes that were set in line.
    pub operations: u64,
}

/// What was asked of the machines of one layout.
#[derive(Clone, Copy, PartialEq, Eq, Debug, Default)]
pub struct Sort {
    /// Accepted ones.
    pub set_ups: u64,
    pub codes: [u64; 32],
    /// Ended reads that got a newer page than they asked for.
    pub newer: u64,
}

impl Tally {
    /// The lines of a schedule, each counted at the machine that it asks.
    pub fn add(&mut self, input: &[u8], output: &[u8]) {
        let mut in_force = Layout::Base;
        for (raw, printed) in raw_lines(input).zip(lines(output).filter_map(Printed::parse)) {
            let set_up = match raw.strip_suffix(b"\n").and_then(parse) {
                Some(Call::SetUp { layout, .. }) => Some(layout),
                _ => None,
            };
            let sort = self.sort(set_up.unwrap_or(in_force));
            if let Some(count) = sort.codes.get_mut(printed.code as usize) {
                *count += 1;
            }
            sort.newer += u64::from(printed.code == READ_ENDED && printed.mark == NEWER);
            if let (Some(layout), DONE) = (set_up, printed.code) {
                sort.set_ups += 1;
                in_force = layout;
            }
        }
    }

    fn sort(&mut self, layout: Layout) -> &mut Sort {
        match layout {
            Layout::Base => &mut self.base,
            Layout::Wide => &mut self.wide,
        }
    }

    pub fn join(&mut self, other: &Tally) {
        self.base.join(&other.base);
        self.wide.join(&other.wide);
        self.schedules += other.schedules;
        self.operations += other.operations;
    }

    pub fn lines(&self) -> u64 {
        self.base.lines() + self.wide.lines()
    }
}

impl Sort {
    fn join(&mut self, other: &Sort) {
        self.set_ups += other.set_ups;
        self.newer += other.newer;
        self.codes.iter_mut().zip(other.codes).for_each(|(sum, count)| *sum += count);
    }

    pub fn lines(&self) -> u64 {
        self.codes.iter().sum()
    }

    pub fn reads(&self) -> u64 {
        self.codes[READ_ENDED as usize]
    }

    pub fn writes(&self) -> u64 {
        self.codes[WRITE_ENDED as usize]
    }
}

impl fmt::Display for Tally {
    fn fmt(&self, f: &mut fmt::Formatter<'_>) -> fmt::Result {
        let Tally { base, wide, schedules, operations } = self;
        writeln!(f, "{schedules} schedules, {} lines, {operations} operations in line", self.lines())?;
        write!(f, "by counts: {base}\nin columns: {wide}")
    }
}

impl fmt::Display for Sort {
    fn fmt(&self, f: &mut fmt::Formatter<'_>) -> fmt::Result {
        let [set_ups, reads, writes] = [(self.set_ups, "set-up"), (self.reads(), "read"), (self.writes(), "write")]
            .map(|(n, what)| counted(n, what));
        write!(f, "{set_ups}, {reads} ({} with a newer page) and {writes} ended, codes", self.newer)?;
        let used = self.codes.iter().enumerate().filter(|(_, &count)| count > 0);
        used.into_iter().try_for_each(|(code, count)| write!(f, " {code}:{count}"))
    }
}

/// "1 line", "2 lines".
pub fn counted(count: u64, what: &str) -> String {
    format!("{count} {what}{}", if count == 1 { "" } else { "s" })
}
