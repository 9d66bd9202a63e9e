//! What a schedule shows is found in a small one.

use bench::compare::copy_output;
use bench::history::{lines, raw_lines, Printed};
use bench::prng::Prng;
use bench::schedule;
use bench::shrink::{shorten, to_code, to_difference, to_mark, Shrunk};
use bench::steps::{concrete, steps};
use std::cell::Cell;
use std::path::Path;

/// Lines that are no calls, of which some are needed: nothing is known of the machine.
#[test]
fn keeps_only_what_is_needed() {
    let input: String = (0..500).map(|n| format!("{n}\n")).collect();
    let needed: [&[u8]; 3] = [b"17\n", b"300\n", b"499\n"];
    let shows = |kept: &[u8]| {
        let kept: Vec<&[u8]> = raw_lines(kept).collect();
        needed.iter().all(|line| kept.contains(line)).then(|| kept.len() - 1)
    };
    let found = shorten(input.as_bytes(), shows).expect("the input shows it");
    assert_eq!(found.schedule, needed.concat());
    assert_eq!(found.to_string(), "3 of 500 lines; no line can be spared");
    assert_eq!(shorten(b"17\n", shows), None);
}

/// A delivery follows its message when lines before it are left out.
#[test]
fn deliveries_follow_their_messages() {
    let input = b"S 2 1 1 0 1 1 9 7\nR 1\nR 2\nD 2\nD 2\nQ\nD 1\n";
    let all = steps(input);
    assert_eq!(concrete(&all).0, input);
    // Without the start of client 1, the mail of client 2 stands in slot 1.
    let without: Vec<_> = all.iter().enumerate().filter(|(at, _)| *at != 1).map(|(_, step)| *step).collect();
    let (text, live) = concrete(&without);
    assert_eq!(text, b"S 2 1 1 0 1 1 9 7\nR 2\nD 1\nD 1\nQ\n");
    assert_eq!((live.len(), concrete(&live).0), (5, text));
    // Without the first read, the second has the first's message numbers.
    let twice = [&b"S 2 1 1 0 1 1 9 7\nR 1\n"[..], &b"D 1\n".repeat(6), b"R 1\nD 1\n"].concat();
    let all = steps(&twice);
    assert_eq!(concrete(&[&all[..1], &all[8..]].concat()).0, b"S 2 1 1 0 1 1 9 7\nR 1\nD 1\n");
}

/// Of two equal messages the lower is taken, so that a line as it stands may hit the other: the
/// steps then lose more than was left out, whatever it is that is to be shown.
#[test]
fn equal_messages() {
    let input = b"S 1 1 2 0 1 1 9 7\nX 3 2\nG 1 2\nG 1 2\nD 2\nD 2\nD 1\nT 9\n";
    let all = steps(input);
    assert_eq!((all.len(), concrete(&all).1.len()), (8, 7));
    for seed in 0..1000 {
        let shows = |kept: &[u8]| {
            let stirred = kept.iter().fold(seed, |sum, &byte| Prng::new(sum ^ u64::from(byte)).word());
            (kept == input || stirred % 3 == 0).then(|| lines(kept).count().saturating_sub(1))
        };
        let found = shorten(input, shows).expect("the input shows it");
        assert!(found.ended && shows(&found.schedule).is_some());
    }
}

fn has(schedule: &[u8], code: u32) -> bool {
    lines(&copy_output(schedule)).filter_map(Printed::parse).any(|printed| printed.code == code)
}

fn shrunk(input: &[u8], code: u32) -> Shrunk {
    to_code(input, code).unwrap_or_else(|why| panic!("{why}"))
}

/// Of every code that these schedules have: the code stays, no line can be spared, and what
/// was found is found again.
#[test]
fn codes_in_small_schedules() {
    let mut seen = 0;
    for seed in 0..12 {
        let input = schedule(seed, 1500);
        for code in (0..=5).chain(17..=24).filter(|&code| has(&input, code)) {
            let found = shrunk(&input, code);
            let count = lines(&found.schedule).count();
            assert!(has(&found.schedule, code) && found.ended, "seed {seed}, code {code}: {found}");
            for left_out in 0..count {
                let kept = raw_lines(&found.schedule).enumerate().filter(|(at, _)| *at != left_out);
                let without: Vec<u8> = kept.flat_map(|(_, raw)| raw.iter().copied()).collect();
                assert!(!has(&without, code), "seed {seed}, code {code}: line {left_out} can be spared");
            }
            assert_eq!(shrunk(&found.schedule, code), Shrunk { of: count, ..found });
            seen += 1;
        }
    }
    assert!(seen > 100, "few codes were seen: {seen}");
}

/// A read waits at the replica while a write ends and is secured there, and its page is tidied away.
#[test]
fn a_newer_page_in_a_small_schedule() {
    let steps = format!("R 1\n{}W 2 9\n{}T 1\nD 1\nD 1\n", "D 1\n".repeat(4), "D 2\n".repeat(7));
    let found = to_mark(format!("Q\nS 8 1 1 0 1 1 99 7\nT 1\n{steps}R 1\n").as_bytes(), 0);
    assert_eq!(found.map(|found| found.schedule), Ok(format!("S 2 1 1 0 1 1 3 7\n{steps}").into_bytes()));
    assert_eq!(to_mark(b"R 1\n", 0), Err("no read ends with the mark 0".to_string()));
}

/// A full replica has 12 entries, so it takes 13 writes: a long schedule comes down to about that.
#[test]
fn a_full_replica_in_a_long_schedule() {
    for seed in [3, 8, 13] {
        let found = shrunk(&schedule(seed, 100_000), 23);
        assert!(found.ended && lines(&found.schedule).count() < 120, "seed {seed}: {found}");
        assert!(matches!(found.schedule.first(), Some(b'S' | b'C')));
    }
}

/// What stands behind the line, and before its machine, is run once.
#[test]
fn a_short_machine_in_a_long_schedule() {
    let other = b"S 1 1 1 0 1 1 3 7\nR 1\n".repeat(10_000);
    let busy = b"S 1 1 1 0 1 1 3 7\nR 1\nR 1\n";
    let input = [&other, &busy[..], &other].concat();
    let run = Cell::new(0);
    let shows = |kept: &[u8]| {
        run.set(run.get() + lines(kept).count());
        lines(&copy_output(kept)).position(|line| Printed::parse(line).is_some_and(|printed| printed.code == 20))
    };
    let found = shorten(&input, shows).expect("the input shows it");
    assert_eq!((found.schedule, found.of), (busy.to_vec(), 40_003));
    assert!(run.get() < 40_200, "{} lines were run", run.get());
}

#[test]
fn the_machine_shrinks_too() {
    let found = shrunk(b"Q\nS 8 5 7 3 3 3 4000000000 7\nR 2\nR 2\nQ\n", 20);
    assert_eq!(found.schedule, b"S 2 1 1 0 1 1 3 7\nR 2\nR 2\n");
}

/// The line that shows it may be far behind: the search ends, and says so.
#[test]
fn the_tries_can_be_used_up() {
    let input = [&b"S 1 1 1 0 1 1 9 7\n"[..], &b"D 1\n".repeat(99_998), b"T 2\n"].concat();
    let found = shorten(&input, |kept| (kept == input).then_some(99_999)).expect("the input shows it");
    assert_eq!(found.to_string(), "100000 of 100000 lines; the tries were used up");
}

#[test]
fn says_where_there_is_nothing_to_show() {
    assert_eq!(to_code(b"R 1\n", 23), Err("no line gets 23 FULL".to_string()));
    assert_eq!(to_code(b"", 18), Err("no line gets 18 BAD ARGUMENT".to_string()));
}

/// `cat` answers these malformed lines rightly, and no others.
#[test]
fn differences_in_small_schedules() {
    let cat = Path::new("cat");
    let right = b"1 18 0 0 0 0 0\n2 18 0 0 0 0 0\n3 18 0 0 0 0 0\n";
    assert_eq!(to_difference(cat, right), Err("nothing differs in 3 lines".to_string()));
    let found = to_difference(cat, &[&right[..], b"S 5 1 1 0 1 1 9 7\nR 1\nR 5\n"].concat());
    assert_eq!(found.map(|found| found.schedule), Ok(b"S 1 1 1 0 1 1 3 7\n".to_vec()));
    let none = to_difference(Path::new("./no-such-program"), right).expect_err("no program");
    assert!(none.starts_with("./no-such-program cannot be run: "), "{none}");
}
