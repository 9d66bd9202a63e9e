//! Schedules on small machines.

use bench::prng::Prng;
use bench::view;
use copy::line::{parse, Call};
use copy::rehearsal::run;
use copy::{Numbers, Rehearsal, Words};

pub fn call(line: &str) -> Call {
    parse(line.as_bytes()).expect("a line")
}

/// The machine of a set-up line.
pub fn machine(set_up: &str) -> Box<Words> {
    let mut machine = Rehearsal::new();
    assert!(machine.step(set_up.as_bytes()).answer.accepted(), "{set_up}");
    machine.words().into()
}

/// Some lines from a set-up on: few starts, so that little mail waits, and crashes near the end.
pub fn wander(rng: &mut Prng, set_up: &str, most: u32, crashes: bool) -> String {
    let mut text = format!("{set_up}\n");
    let mut words = machine(set_up);
    let count = rng.between(0, most);
    for step in 0..count {
        let n = Numbers::read(&words);
        let waiting = view::waiting(&words);
        let line = match rng.below(20) {
            0 => format!("R {}", rng.between(1, n.nc)),
            1 | 2 => format!("W {} {}", rng.between(1, n.nc), step + 10),
            3 => format!("G {} {}", rng.between(1, n.nr), rng.between(1, n.nr)),
            4 => format!("T {}", rng.between(1, n.nr)),
            5..=7 if crashes && step + 8 > count => format!("X {} {}", rng.between(1, 3), rng.between(1, n.nd.max(3))),
            _ if waiting.is_empty() => format!("W {} {}", rng.between(1, n.nc), step + 10),
            _ => format!("D {}", rng.pick(&waiting)),
        };
        run(&mut words, call(&line));
        text.push_str(&line);
        text.push('\n');
    }
    text
}

pub const SMALL: [&str; 5] =
    ["S 2 1 1 0 1 1 99 7", "S 2 2 1 0 1 2 99 7", "S 2 2 1 0 2 1 99 7", "S 2 1 2 0 1 1 99 7", "S 2 1 3 1 1 1 99 7"];

/// Small machines in columns: all divisors of 2 to 4.
pub const SMALL_IN_COLUMNS: [&str; 7] = [
    "C 2 2 1 0 1 99 7",
    "C 2 2 2 0 2 99 7",
    "C 2 3 1 0 1 99 7",
    "C 2 3 1 0 3 99 7",
    "C 2 4 1 0 1 99 7",
    "C 2 4 1 0 2 99 7",
    "C 2 4 1 0 4 99 7",
];

/// Number of directories and columns: all divisors of these numbers.
pub fn standings() -> impl Iterator<Item = (u32, u32)> {
    let divisors =
        |nd: u32| (1..=nd).filter(move |columns| nd.is_multiple_of(*columns)).map(move |columns| (nd, columns));
    [2, 3, 4, 6, 12, 16].into_iter().flat_map(divisors)
}
