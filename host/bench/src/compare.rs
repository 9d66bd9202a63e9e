//! The copy of the rules and another program on the same schedules, line by line.

use crate::external;
use crate::history::{lines, raw_lines};
use crate::names::line_text;
use crate::order;
use crate::schedule::schedule;
use crate::shrink::shorten;
use crate::tally::{counted, Tally};
use copy::Rehearsal;
use std::fmt;
use std::path::Path;

/// One schedule and the seed it came from.
pub struct Seeded {
    pub seed: u64,
    pub input: Vec<u8>,
}

#[derive(Clone, PartialEq, Eq, Debug)]
pub struct Difference {
    pub seed: u64,
    pub what: String,
    /// A short schedule that still shows it.
    pub shortest: Vec<u8>,
}

impl fmt::Display for Difference {
    fn fmt(&self, f: &mut fmt::Formatter<'_>) -> fmt::Result {
        write!(f, "seed {}: {}", self.seed, self.what)?;
        if self.shortest.is_empty() {
            return Ok(());
        }
        let count = counted(lines(&self.shortest).count() as u64, "line");
        let text = self.shortest.escape_ascii().to_string().replace("\\n", "\n");
        write!(f, "\nshortest schedule found ({count}):\n{text}")
    }
}

/// One generated schedule through both; the program is found as `external::program` says.
pub fn compare(seed: u64, lines: usize) -> Result<Tally, Difference> {
    let missing = |what| Difference { seed, what, shortest: Vec::new() };
    let program = external::program().map_err(missing)?;
    compare_all(&program, &[Seeded { seed, input: schedule(seed, lines) }])
}

/// Many schedules in one run of the program; each but the first must begin with a set-up.
pub fn compare_all(program: &Path, schedules: &[Seeded]) -> Result<Tally, Difference> {
    let input: Vec<u8> = schedules.iter().flat_map(|one| one.input.iter().copied()).collect();
    let seed = schedules.first().map_or(0, |one| one.seed);
    let found = external::run(program, &input).map_err(|what| Difference { seed, what, shortest: Vec::new() })?;
    let expected = copy_output(&input);
    if let Some(line) = first_difference(&expected, &found) {
        return Err(narrow(program, schedules, line));
    }
    let mut tally = Tally { schedules: schedules.len() as u64, ..Tally::default() };
    tally.add(&input, &found);
    match order::check(&input, &found) {
        Ok(checked) => Ok(Tally { operations: checked.in_line as u64, ..tally }),
        Err(what) => Err(out_of_line(program, schedules, what)),
    }
}

pub fn copy_output(input: &[u8]) -> Vec<u8> {
    let mut rehearsal = Rehearsal::new();
    let mut out = Vec::with_capacity(2 * input.len());
    rehearsal.feed(input, &mut out);
    rehearsal.finish(&mut out);
    out
}

/// One schedule through both: how many lines are equal, or the first line that is not.
pub fn compare_one(program: &Path, input: &[u8]) -> Result<usize, String> {
    let found = external::run(program, input)?;
    let expected = copy_output(input);
    match first_difference(&expected, &found) {
        Some(at) => Err(parted(input, &expected, &found, at)),
        None => Ok(lines(input).count()),
    }
}

/// A program that no longer runs differs.
fn program_output(program: &Path, input: &[u8]) -> Vec<u8> {
    external::run(program, input).unwrap_or_else(String::into_bytes)
}

/// Index of the first line that the two answer differently.
pub fn differs_at(program: &Path, input: &[u8]) -> Option<usize> {
    first_difference(&copy_output(input), &program_output(program, input))
}

/// Index of the first line that differs.
fn first_difference(expected: &[u8], found: &[u8]) -> Option<usize> {
    if expected == found {
        return None;
    }
    Some(raw_lines(expected).zip(raw_lines(found)).take_while(|(a, b)| a == b).count())
}

/// What the two print where they part. A program may print more lines than it was given.
fn parted(input: &[u8], expected: &[u8], found: &[u8], at: usize) -> String {
    let text = lines(input).nth(at).map_or("which is none".to_string(), |line| format!("\"{}\"", line_text(line)));
    let answer = |output| raw_lines(output).nth(at).map_or("nothing".to_string(), printed);
    format!("line {}, {text}: the copy prints {}, the program {}", at + 1, answer(expected), answer(found))
}

fn printed(raw: &[u8]) -> String {
    match raw.strip_suffix(b"\n") {
        Some(line) => format!("\"{}\"", line_text(line)),
        None => format!("\"{}\" without its LF", line_text(raw)),
    }
}

/// The schedule with the differing line alone, if it differs alone; else all up to it.
fn narrow(program: &Path, schedules: &[Seeded], line: usize) -> Difference {
    let mut left = line;
    let mut at = 0;
    while at + 1 < schedules.len() && left >= lines(&schedules[at].input).count() {
        left -= lines(&schedules[at].input).count();
        at += 1;
    }
    let Seeded { seed, input } = &schedules[at];
    let differs = |input: &[u8]| differs_at(program, input);
    let whole = || schedules[..=at].iter().flat_map(|one| one.input.iter().copied()).collect::<Vec<u8>>();
    let shrunk = shorten(input, differs).or_else(|| shorten(&whole(), differs));
    let shortest = shrunk.map_or_else(whole, |shrunk| shrunk.schedule);
    let what = compare_one(program, &shortest).err().unwrap_or("differs now and then".to_string());
    Difference { seed: *seed, what, shortest }
}

fn out_of_line(program: &Path, schedules: &[Seeded], what: String) -> Difference {
    // The line as a whole is wrong, so its last answer stands for the place.
    let broken = |input: &[u8]| {
        let checked = order::check(input, &program_output(program, input));
        checked.err().map(|_| lines(input).count().saturating_sub(1))
    };
    let Some((seed, shrunk)) = schedules.iter().find_map(|one| Some((one.seed, shorten(&one.input, broken)?))) else {
        return Difference { seed: schedules[0].seed, what, shortest: Vec::new() };
    };
    let shortest = shrunk.schedule;
    let what = order::check(&shortest, &program_output(program, &shortest)).err().unwrap_or(what);
    Difference { seed, what, shortest }
}
