//! The copy of the rules against the program under test, on a million lines and more.

use bench::compare::{compare_all, compare_one, Seeded};
use bench::history::lines;
use bench::tally::Tally;
use bench::{cold_schedule, compare, external, schedule, Difference};
use std::path::{Path, PathBuf};

fn program() -> PathBuf {
    external::program().unwrap_or_else(|why| panic!("{why}"))
}

fn agreed(result: Result<Tally, Difference>) -> Tally {
    result.unwrap_or_else(|difference| panic!("{difference}"))
}

/// Lengths differ, so that some machines grow old and most do not.
fn length_of(seed: u64) -> usize {
    match seed % 16 {
        0 => 2000,
        1..=3 => 700,
        _ => 100 + (seed * 31 % 150) as usize,
    }
}

#[test]
fn a_million_lines() {
    const BATCH: u64 = 400;
    let program = program();
    let mut total = Tally::default();
    let mut seed = 0;
    while total.lines() < 1_000_000 {
        let seeds = seed..seed + BATCH;
        let batch: Vec<Seeded> = seeds.map(|seed| Seeded { seed, input: schedule(seed, length_of(seed)) }).collect();
        total.join(&agreed(compare_all(&program, &batch)));
        seed += BATCH;
    }
    println!("{total}");
}

#[test]
fn from_the_zero_words() {
    let program = program();
    for seed in 0..60 {
        agreed(compare_all(&program, &[Seeded { seed, input: cold_schedule(seed, 40) }]));
    }
}

#[test]
fn single_schedules() {
    for seed in 5000..5010 {
        agreed(compare(seed, 300));
    }
}

#[test]
fn odd_inputs() {
    let program = program();
    let long = [&b"S 1 1 1 0 1 1 6 7\n"[..], &vec![b'9'; 300_000], b"\nR 1\n"].concat();
    let inputs: [&[u8]; 12] = [
        b"",
        b"\n",
        b"\n\n\n",
        b"R 1",
        b"S 1 1 1 0 1 1 6 7",
        b"\0\n\xff\n\r\n",
        b"S 1 1 1 0 1 1 6 7\nR 1",
        &long,
        b"C 1 2 1 0 1 6 7",
        b"C 1 2 1 0 1 6 7\nR 1",
        b"C 1 2 1 0 0 6 7\nR 1\n",
        b"S 1 1 1 0 1 1 6 7\nC 1 4 1 0 3 6 7\nR 1\nC 1 4 1 0 2 6 7\nR 1\nS 1 1 1 0 1 0 6 7\nR 1\nD 4\n",
    ];
    for input in inputs {
        agreed(compare_all(&program, &[Seeded { seed: 0, input: input.to_vec() }]));
    }
}

#[test]
fn one_file() {
    assert_eq!(compare_one(&program(), &schedule(4, 700)), Ok(700));
    assert_eq!(compare_one(&program(), b"R 1"), Ok(1));
}

/// `cat` answers a malformed line rightly where it is its own answer; `true` answers nothing.
#[test]
fn the_first_line_that_differs() {
    let told = |program, input: &[u8]| compare_one(Path::new(program), input);
    let right = b"1 18 0 0 0 0 0\n2 18 0 0 0 0 0\n";
    assert_eq!(told("cat", right), Ok(2));
    assert_eq!(
        told("cat", &[&right[..], b"R 1\nR 2\n"].concat()),
        Err("line 3, \"R 1\": the copy prints \"3 17 0 0 0 0 0\", the program \"R 1\"".to_string())
    );
    assert_eq!(
        told("cat", b"1 18 0 0 0 0 0"),
        Err("line 1, \"1 18 0 0 0 0 0\": the copy prints \"1 18 0 0 0 0 0\", the program \"1 18 0 0 0 0 0\" without its LF"
            .to_string())
    );
    assert_eq!(
        told("true", b"\xff\n"),
        Err("line 1, \"\\xff\": the copy prints \"1 18 0 0 0 0 0\", the program nothing".to_string())
    );
    assert_eq!(
        told("env", b"").map_err(|why| why.split(", the program").next().unwrap_or_default().to_string()),
        Err("line 1, which is none: the copy prints nothing".to_string())
    );
    let missing = told("./no-such-program", right).expect_err("no program");
    assert!(missing.starts_with("./no-such-program cannot be run: "), "{missing}");
}

/// A difference names its seed and comes with a small schedule.
#[test]
fn a_difference_is_made_short() {
    let batch: Vec<Seeded> = (7..10).map(|seed| Seeded { seed, input: schedule(seed, 40) }).collect();
    let difference = compare_all(Path::new("cat"), &batch).expect_err("cat is no rehearsal");
    assert_eq!(difference.seed, 7);
    assert_eq!(lines(&difference.shortest).count(), 1);
    let text = difference.to_string();
    assert!(text.starts_with("seed 7: line 1, \"S "), "{text}");
    assert!(text.contains("\nshortest schedule found (1 line):\nS "), "{text}");
}
