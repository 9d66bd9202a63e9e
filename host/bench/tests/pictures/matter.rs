//! Schedules of all sorts, and what the copy of the rules answers to them.

use super::newer::newer;
use bench::compare::copy_output;
use bench::history::{lines, Printed};
use bench::prng::Prng;
use bench::{cold_schedule, night, schedule, view};
use copy::line::{parse, Call};
use copy::{Layout, Rehearsal};

/// Lines that would break a picture or a page if they were not escaped.
pub const ODD: [&[u8]; 8] = [
    b"<script>alert(1)</script>\n",
    b"</script><b>\"'&amp;\\\n",
    b"\n",
    b"R 1   \n",
    b"\xff\xfe\x00<g>\n",
    b"D 99999999999\n",
    b"S 9 9 9 9 9 9 9 9\n",
    b"<!-- ]]> @@script@@ @@title@@\n",
];

/// Several set-ups, crashes and refusals; odd lines stand among the others, one after each `step`.
pub fn mixed(seed: u64, count: usize, step: usize) -> Vec<u8> {
    let mut input = Vec::new();
    for (index, line) in schedule(seed, count).split_inclusive(|&byte| byte == b'\n').enumerate() {
        input.extend_from_slice(line);
        if index % step == step - 1 {
            input.extend_from_slice(ODD[index / step % ODD.len()]);
        }
    }
    input
}

/// Machines in columns after each other, and between those with counts.
const SET_UPS: [&str; 8] = [
    "C 2 4 2 0 2 99 7",
    "C 2 4 2 0 4 99 7",
    "S 2 4 2 0 2 3 99 7",
    "C 1 16 3 1 4 99 7",
    "C 2 6 2 0 3 99 7",
    "C 2 6 2 0 2 99 7",
    "S 1 1 1 0 1 1 99 7",
    "C 8 12 7 3 1 99 7",
];

/// Some lines on each of these machines, with crashes; many are refused.
pub fn in_columns(seed: u64) -> Vec<u8> {
    let mut rng = Prng::new(seed);
    let mut machine = Rehearsal::new();
    let mut text = String::new();
    for set_up in SET_UPS {
        for step in 0..rng.between(1, 45) {
            let line = match rng.below(14) {
                _ if step == 0 => set_up.to_string(),
                0 => format!("R {}", rng.between(1, 3)),
                1 | 2 => format!("W {} {}", rng.between(1, 3), step + 10),
                3 => format!("X {} {}", rng.between(1, 3), rng.between(1, 16)),
                4 => format!("G {} {}", rng.between(1, 3), rng.between(1, 3)),
                _ => format!("D {}", view::waiting(machine.words()).first().map_or(1, |slot| slot + rng.between(0, 9))),
            };
            machine.step(line.as_bytes());
            text += &format!("{line}\n");
        }
    }
    text.into_bytes()
}

pub fn all_sorts() -> Vec<Vec<u8>> {
    let mut all: Vec<Vec<u8>> = (0..40).map(|seed| mixed(seed, 150, 7)).collect();
    all.extend((0..10).map(in_columns));
    all.extend((0..5).map(|seed| cold_schedule(seed, 30)));
    all.push(night::night(400));
    all.push(newer().into_bytes());
    all.push(ODD.concat());
    all.push(b"S 1 1 1 0 1 1 6 7\nR 1".to_vec());
    all
}

/// Numbers of the accepted lines and of the refused ones, with their codes.
pub fn answered(input: &[u8]) -> (Vec<usize>, Vec<(usize, u32)>) {
    let output = copy_output(input);
    let all: Vec<Printed> = lines(&output).filter_map(Printed::parse).collect();
    let (taken, refused): (Vec<Printed>, Vec<Printed>) = all.into_iter().partition(|one| one.code < 16);
    let taken = taken.into_iter().map(|one| one.line).collect();
    (taken, refused.into_iter().map(|one| (one.line, one.code)).collect())
}

/// All sorts are indeed there: without them the tests of the others would say little.
#[test]
fn all_sorts_are_there() {
    let calls: Vec<Call> =
        all_sorts().iter().flat_map(|input| lines(input).filter_map(parse).collect::<Vec<_>>()).collect();
    let count = |wanted: fn(&Call) -> bool| calls.iter().filter(|call| wanted(call)).count();
    assert!(count(|call| matches!(call, Call::SetUp { layout: Layout::Base, .. })) > 100);
    assert!(count(|call| matches!(call, Call::SetUp { layout: Layout::Wide, .. })) > 50);
    assert!(count(|call| matches!(call, Call::Crash { .. })) > 50);
    assert!(count(|call| matches!(call, Call::Tidy { .. })) > 50);
    assert!(count(|call| matches!(call, Call::Gossip { .. })) > 50);
}
