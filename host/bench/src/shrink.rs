//! The smallest schedule found that still shows something, by leaving out ever smaller chunks.

use crate::compare::differs_at;
use crate::external;
use crate::history::{lines, raw_lines};
use crate::names;
use crate::odd::set_up_line;
use crate::profile::divisors;
use crate::steps::{concrete, steps, Step};
use crate::tally::counted;
use copy::answer::{BAD_ARGUMENT, READ_ENDED};
use copy::line::{parse, Call};
use copy::{Answer, Numbers, Rehearsal};
use std::fmt;
use std::path::Path;

/// Runs are costly, so the search ends after so many lines, or so many times those of the input.
/// A run costs some lines more for itself.
const MOST_LINES: usize = 3_000_000;
const MOST_TIMES: usize = 30;
const RUN: usize = 300;

/// What was found, of how many lines, and whether the search came to its end.
#[derive(Clone, PartialEq, Eq, Debug)]
pub struct Shrunk {
    pub schedule: Vec<u8>,
    pub of: usize,
    pub ended: bool,
}

impl fmt::Display for Shrunk {
    fn fmt(&self, f: &mut fmt::Formatter<'_>) -> fmt::Result {
        let why = if self.ended { "no line can be spared" } else { "the tries were used up" };
        write!(f, "{} of {}; {why}", lines(&self.schedule).count(), counted(self.of as u64, "line"))
    }
}

/// `shows` gives the place of the first line that shows it. Nothing where the input shows nothing.
pub fn shorten(input: &[u8], shows: impl Fn(&[u8]) -> Option<usize>) -> Option<Shrunk> {
    let at = shows(input)?;
    let of = lines(input).count();
    let mut search = Search { shows, left: MOST_LINES.max(MOST_TIMES * of) };
    let mut schedule = search.first_cuts(input, at);
    // Until no one can be spared any more: what one way leaves out may help another.
    loop {
        let smaller = search.by_steps(schedule.clone());
        let smaller = search.by_lines(smaller);
        let smaller = search.by_numbers(smaller);
        if smaller == schedule || search.left == 0 {
            return Some(Shrunk { schedule: smaller, of, ended: search.left > 0 });
        }
        schedule = smaller;
    }
}

/// A schedule on which the copy and the program differ.
pub fn to_difference(program: &Path, input: &[u8]) -> Result<Shrunk, String> {
    // A program that never runs would differ on any schedule.
    external::run(program, b"")?;
    let equal = || format!("nothing differs in {}", counted(lines(input).count() as u64, "line"));
    shorten(input, |input| differs_at(program, input)).ok_or_else(equal)
}

/// A schedule to which the copy answers with a code.
pub fn to_code(input: &[u8], code: u32) -> Result<Shrunk, String> {
    let wanted = |answer: Answer| answer.code == code;
    shorten(input, |input| answer_at(input, wanted)).ok_or_else(|| format!("no line gets {}", names::code(code)))
}

/// A schedule in which the copy ends a read with a mark.
pub fn to_mark(input: &[u8], mark: u32) -> Result<Shrunk, String> {
    let wanted = |answer: Answer| answer.code == READ_ENDED && answer.mark == mark;
    shorten(input, |input| answer_at(input, wanted)).ok_or_else(|| format!("no read ends with the mark {mark}"))
}

/// Index of the first line with a wanted answer.
fn answer_at(input: &[u8], wanted: impl Fn(Answer) -> bool) -> Option<usize> {
    let mut machine = Rehearsal::new();
    let answer = |raw: &[u8]| match raw.strip_suffix(b"\n") {
        Some(line) => machine.step(line).answer,
        None => Answer::bare(BAD_ARGUMENT),
    };
    raw_lines(input).map(answer).position(wanted)
}

struct Search<F> {
    shows: F,
    /// Lines that may still be run.
    left: usize,
}

impl<F: Fn(&[u8]) -> Option<usize>> Search<F> {
    fn shows(&mut self, schedule: &[u8]) -> bool {
        self.left = self.left.saturating_sub(RUN + lines(schedule).count());
        self.left > 0 && (self.shows)(schedule).is_some()
    }

    /// Nothing behind the line that shows it is wanted, and seldom what stands before its machine.
    fn first_cuts(&mut self, input: &[u8], at: usize) -> Vec<u8> {
        let all: Vec<&[u8]> = raw_lines(input).take(at + 1).collect();
        let set_up = all.iter().rposition(|raw| numbers_of(raw).is_some()).unwrap_or(0);
        let cuts = [&all[set_up..], &all];
        let kept = cuts.iter().map(|cut| cut.concat()).find(|cut| (self.shows)(cut).is_some());
        kept.unwrap_or_else(|| input.to_vec())
    }

    /// Without some steps, where deliveries follow their messages.
    fn by_steps(&mut self, schedule: Vec<u8>) -> Vec<u8> {
        self.shrink(steps(&schedule), concrete).unwrap_or(schedule)
    }

    /// Without some lines, the others as they stand.
    fn by_lines(&mut self, schedule: Vec<u8>) -> Vec<u8> {
        let all = raw_lines(&schedule).collect();
        self.shrink(all, |kept| (kept.concat(), kept.to_vec())).unwrap_or(schedule)
    }

    /// The same steps on a smaller machine.
    fn by_numbers(&mut self, schedule: Vec<u8>) -> Vec<u8> {
        let all = steps(&schedule);
        let set_up = raw_lines(&schedule).enumerate().find_map(|(at, raw)| Some((at, numbers_of(raw)?)));
        let Some((at, (numbers, word))) = set_up else { return schedule };
        for smaller in smaller(numbers) {
            let line = format!("{}\n", set_up_line(&smaller, word));
            let mut tried = all.clone();
            tried[at] = Step::Line(line.as_bytes());
            let text = concrete(&tried).0;
            if self.shows(&text) {
                return self.by_numbers(text);
            }
        }
        schedule
    }

    /// `made` gives the schedule of some parts, and those of the parts that it has a line for.
    /// Nothing where no part can be spared.
    fn shrink<T: Copy>(&mut self, all: Vec<T>, made: impl Fn(&[T]) -> (Vec<u8>, Vec<T>)) -> Option<Vec<u8>> {
        let mut kept = all;
        let mut chunk = kept.len();
        let mut shortest = None;
        while chunk > 0 && self.left > 0 {
            shortest = self.sweep(&mut kept, chunk, &made).or(shortest);
            chunk /= 2;
        }
        shortest
    }

    /// From the end on. The first part and the last, mostly the set-up and what is to be shown,
    /// are tried only by themselves.
    fn sweep<T: Copy>(
        &mut self,
        kept: &mut Vec<T>,
        chunk: usize,
        made: &impl Fn(&[T]) -> (Vec<u8>, Vec<T>),
    ) -> Option<Vec<u8>> {
        let edge = usize::from(chunk > 1);
        let mut end = kept.len().saturating_sub(edge);
        let mut shortest = None;
        while end > edge && self.left > 0 {
            let start = end.saturating_sub(chunk).max(edge);
            let without: Vec<T> = kept[..start].iter().chain(&kept[end..]).copied().collect();
            let (text, live) = made(&without);
            if self.shows(&text) {
                (*kept, shortest) = (live, Some(text));
            }
            // Deliveries further to the front may have gone too.
            end = start.min(kept.len());
        }
        shortest
    }
}

/// The numbers and the word of a set-up that would be accepted.
fn numbers_of(raw: &[u8]) -> Option<(Numbers, u32)> {
    match raw.strip_suffix(b"\n").and_then(parse)? {
        Call::SetUp { layout, numbers, word } if numbers.in_range(layout) => Some((numbers, word)),
        _ => None,
    }
}

/// One number less, or two that belong together; and at once as low as it can be.
fn smaller(n: Numbers) -> impl Iterator<Item = Numbers> {
    let less = |value: u32| value.saturating_sub(1);
    let tried = [
        Numbers { nd: 1, rq: 1, wq: 1, columns: 0, ..n },
        Numbers { nr: 1, f: 0, ..n },
        Numbers { nc: less(n.nc), ..n },
        Numbers { nd: less(n.nd), rq: less(n.rq), ..n },
        Numbers { nd: less(n.nd), wq: less(n.wq), ..n },
        Numbers { rq: less(n.rq), ..n },
        Numbers { wq: less(n.wq), ..n },
        Numbers { nr: less(n.nr), ..n },
        Numbers { f: less(n.f), ..n },
        Numbers { top: 3, ..n },
        Numbers { top: n.top / 2, ..n },
        Numbers { top: less(n.top).min(99), ..n },
    ];
    let tried = tried.into_iter().chain(fewer_in_columns(n));
    tried.filter(move |smaller| *smaller != n && smaller.in_range(smaller.layout()))
}

/// Two directories, one row less, one column less, or as many directories in fewer columns.
fn fewer_in_columns(n: Numbers) -> Vec<Numbers> {
    let Numbers { nd, columns, .. } = n;
    if columns == 0 {
        return Vec::new();
    }
    let shapes = [(2, 1), (2, 2), (nd - columns, columns), (nd - nd / columns, columns - 1)];
    let narrower = divisors(nd).into_iter().map(|fewer| (nd, fewer));
    let fewer = shapes.into_iter().chain(narrower).filter(|&shape| shape < (nd, columns));
    fewer.map(|(nd, columns)| Numbers { nd, columns, ..n }).collect()
}
