//! Machines in columns: what is told of a refused one, what is checked, and that a wrong program is found.

use bench::compare::{compare_one, copy_output};
use bench::history::{lines, raw_lines};
use bench::meaning::bad_argument;
use bench::odd::set_up_line;
use bench::order::check;
use bench::schedule;
use bench::shrink::shorten;
use bench::soak::soak;
use copy::line::{parse, Call};
use copy::{Layout, Numbers};
use std::fs::{self, Permissions};
use std::os::unix::fs::PermissionsExt;
use std::path::PathBuf;

const NONE: Numbers = Numbers { nc: 0, nd: 0, nr: 0, f: 0, rq: 0, wq: 0, top: 0, columns: 0 };

#[test]
fn sentences_of_columns() {
    for (line, why) in [
        ("C 9 2 1 0 1 6 7", "clients are 1 to 8"),
        ("C 1 1 1 0 1 6 7", "directories in columns are 2 to 16"),
        ("C 1 17 1 0 17 6 7", "directories in columns are 2 to 16"),
        ("C 1 2 8 0 1 6 7", "replicas are 1 to 7"),
        ("C 1 2 7 4 1 6 7", "f is 0 to 3"),
        ("C 1 2 2 1 1 6 7", "2f + 1 is more than the replicas"),
        ("C 1 12 1 0 0 6 7", "the columns are 1 to the number of directories"),
        ("C 1 12 1 0 13 6 7", "the columns are 1 to the number of directories"),
        ("C 1 12 1 0 4294967295 6 7", "the columns are 1 to the number of directories"),
        ("C 1 12 1 0 5 6 7", "the directories do not stand in equal columns"),
        ("C 1 12 1 0 3 2 7", "top is 3 or more"),
    ] {
        let call = parse(line.as_bytes()).expect("a call");
        assert_eq!(bad_argument(&NONE, call).as_deref(), Some(why), "{line}");
    }
}

/// A set-up is told to be out of range exactly where it is, whatever layout is asked.
#[test]
fn set_ups_out_of_range() {
    let counts = [0, 1, 2, 3, 5, 16, 17, u32::MAX];
    let quorums = [(0, 0), (0, 1), (1, 0), (1, 2), (2, 1), (u32::MAX, u32::MAX)];
    for (nd, columns) in counts.iter().flat_map(|&nd| counts.map(|columns| (nd, columns))) {
        for ((rq, wq), layout) in quorums.iter().flat_map(|&both| Layout::ALL.map(|layout| (both, layout))) {
            for (nc, nr, f, top) in [(1, 1, 0, 3), (0, 1, 0, 3), (8, 7, 3, 9), (1, 6, 3, 3), (1, 7, 4, 3), (1, 1, 0, 2)]
            {
                let numbers = Numbers { nc, nd, nr, f, rq, wq, top, columns };
                let told = bad_argument(&NONE, Call::SetUp { layout, numbers, word: 7 });
                assert_eq!(told.is_none(), numbers.in_range(layout), "{layout:?} {numbers:?}");
            }
        }
    }
}

/// Operations of both machines are set in line, a line for each set-up.
#[test]
fn both_machines_in_line() {
    let mut in_line = 0;
    for seed in 0..300 {
        let input = schedule(seed, 500);
        let checked = check(&input, &copy_output(&input)).unwrap_or_else(|why| panic!("seed {seed}: {why}"));
        in_line += checked.in_line;
    }
    assert!(in_line > 2000, "{in_line}");
}

/// A write and a read of 4 directories in 2 columns, the lowest waiting message first.
const FIRST: &str = "C 1 4 1 0 2 9 7\nW 1 5\n";

fn drained() -> String {
    let mut input = FIRST.to_string();
    for _ in 0..2 {
        while let Some(slot) = (1..=20).find(|slot| !ends_with_code(&format!("{input}D {slot}\n"), 22)) {
            input += &format!("D {slot}\n");
        }
        input += "R 1\n";
    }
    input
}

fn ends_with_code(input: &str, code: u32) -> bool {
    let output = String::from_utf8(copy_output(input.as_bytes())).expect("text");
    output.lines().next_back().is_some_and(|line| line.split(' ').nth(1) == Some(&code.to_string()))
}

#[test]
fn answers_that_are_wrong() {
    let input = drained();
    let output = String::from_utf8(copy_output(input.as_bytes())).expect("text");
    let told = |input: &str, output: &str| check(input.as_bytes(), output.as_bytes()).map(|checked| checked.in_line);
    assert_eq!(told(&input, &output), Ok(2));
    let lie = output.replace(" 1 1 1 1 5 1\n", " 1 1 1 1 6 1\n");
    assert_ne!(lie, output);
    assert!(told(&input, &lie).is_err_and(|why| why.contains("should show 5")));
    let lie = output.replace(" 1 1 1 1 5 1\n", " 1 1 1 1 5 0\n");
    assert!(told(&input, &lie).is_err_and(|why| why.contains("ended before it started")));
    let first = |line: &str, answer: &str| told(&format!("{line}\n"), &format!("1 {answer} 0 0 0 0 0\n"));
    assert_eq!(first("C 1 4 1 0 2 9 7", "0"), Ok(0));
    for (line, code) in [("C 1 4 1 0 2 9 7", "18"), ("C 1 4 1 0 3 9 7", "0"), ("C 1 4 1 0 2 9", "0")] {
        assert!(first(line, code).is_err(), "{line}: {code}");
    }
    // A refused set-up leaves 16 directories in force, and they are directories of this machine alone.
    let crashes = "C 1 16 1 0 4 9 7\nS 1 5 1 0 1 1 9 7\nX 2 16\nS 1 5 1 0 1 5 9 7\nX 2 16\n";
    assert_eq!(told(crashes, "1 0 0 0 0 0 0\n2 18 0 0 0 0 0\n3 0 0 0 0 0 0\n4 0 0 0 0 0 0\n5 18 0 0 0 0 0\n"), Ok(0));
    assert!(told(crashes, "1 0 0 0 0 0 0\n2 18 0 0 0 0 0\n3 18 0 0 0 0 0\n4 0 0 0 0 0 0\n5 18 0 0 0 0 0\n").is_err());
}

/// The copy behind a change of its input; the file is gone at the end of its test.
struct Wrong(PathBuf);

impl Wrong {
    fn new(name: &str, change: &str) -> Wrong {
        let path = std::env::temp_dir().join(format!("bench-columns-{}-{name}", std::process::id()));
        let bench = env!("CARGO_BIN_EXE_bench");
        let script = format!("#!/bin/sh\nLC_ALL=C sed -E '{change}' | '{bench}' rehearse /dev/stdin\n");
        fs::write(&path, script).expect("a file");
        fs::set_permissions(&path, Permissions::from_mode(0o755)).expect("permissions");
        Wrong(path)
    }
}

impl Drop for Wrong {
    fn drop(&mut self) {
        let _ = fs::remove_file(&self.0); // what is left is in the way of nobody
    }
}

/// A program that changes nothing agrees; one that knows no columns, or takes them all for one, is found.
#[test]
fn wrong_programs_are_found() {
    let right = Wrong::new("right", "");
    assert_eq!(compare_one(&right.0, drained().as_bytes()), Ok(lines(drained().as_bytes()).count()));
    assert!(soak(&right.0, 1, |_| false).is_ok_and(|tally| tally.wide.set_ups > 50 && tally.base.set_ups > 50));

    let unknowing = Wrong::new("unknowing", "s/^C/Q/");
    let found = soak(&unknowing.0, 1, |_| false).expect_err("it knows no columns");
    assert!(found.shortest.starts_with(b"C 1 2 1 0 1 3 "), "{found}");
    assert_eq!(lines(&found.shortest).count(), 1, "{found}");

    let one = Wrong::new("one", "s/^(C 1 4 1 0) 2 /\\1 1 /");
    let why = compare_one(&one.0, drained().as_bytes()).expect_err("its columns are one");
    assert!(why.contains("\"D "), "{why}");
}

/// The schedule as a machine takes it that has rows for columns and columns for rows.
fn turned(input: &[u8]) -> Vec<u8> {
    let turn = |raw: &[u8]| match raw.strip_suffix(b"\n").and_then(parse) {
        Some(Call::SetUp { layout: Layout::Wide, numbers: n, word }) if n.in_range(Layout::Wide) => {
            format!("{}\n", set_up_line(&Numbers { columns: n.nd / n.columns, ..n }, word)).into_bytes()
        }
        _ => raw.to_vec(),
    };
    raw_lines(input).flat_map(turn).collect()
}

/// Quorums that are wrong show in the schedules, and in a small machine.
#[test]
fn turned_columns_are_found() {
    let differs = |input: &[u8]| {
        let (right, wrong) = (copy_output(input), copy_output(&turned(input)));
        let at = lines(&right).zip(lines(&wrong)).take_while(|(a, b)| a == b).count();
        (right != wrong).then_some(at)
    };
    let mut found = 0;
    for seed in 0..60 {
        let Some(shrunk) = shorten(&schedule(seed, 400), differs) else { continue };
        assert!(shrunk.schedule.starts_with(b"C ") && shrunk.ended, "seed {seed}: {shrunk}");
        assert!(lines(&shrunk.schedule).count() < 20, "seed {seed}: {}", shrunk.schedule.escape_ascii());
        found += 1;
    }
    assert!(found > 20, "{found} of 60");
}

/// Directories and columns go down together: a machine of any shape comes to the least that shows it.
#[test]
fn columns_shrink() {
    let smallest = |line: &str, fits: fn(u32, u32) -> bool| {
        let shows = |input: &[u8]| {
            lines(input).position(|line| match parse(line) {
                Some(Call::SetUp { numbers: n, .. }) => n.columns > 0 && fits(n.nd, n.columns),
                _ => false,
            })
        };
        let found = shorten(line.as_bytes(), shows).expect("the input shows it");
        assert!(found.ended);
        String::from_utf8(found.schedule).expect("text")
    };
    assert_eq!(smallest("C 8 12 7 3 4 4000000000 7\n", |_, _| true), "C 1 2 1 0 1 3 7\n");
    assert_eq!(smallest("C 8 12 7 3 4 9 7\n", |_, columns| columns > 1), "C 1 2 1 0 2 3 7\n");
    assert_eq!(smallest("C 8 12 7 3 4 9 7\n", |nd, columns| columns > 1 && columns < nd), "C 1 4 1 0 2 3 7\n");
    assert_eq!(smallest("C 8 16 7 3 4 9 7\n", |nd, columns| nd / columns > 2), "C 1 3 1 0 1 3 7\n");
    assert_eq!(smallest("C 8 16 7 3 16 9 7\n", |nd, columns| nd == 16 && columns > 1), "C 1 16 1 0 2 3 7\n");
    // Where columns do not matter, neither do they stay.
    let busy = bench::shrink::to_code(b"C 8 12 7 3 4 9 7\nR 2\nR 2\n", 20).expect("a busy client");
    assert_eq!(busy.schedule, b"S 2 1 1 0 1 1 3 7\nR 2\nR 2\n");
}
