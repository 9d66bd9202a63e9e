//! Input that no one would write: each command answers, and soon.

use bench::compare::{compare_one, copy_output};
use bench::external;
use bench::order::{check, Checked};
use bench::prng::Prng;
use bench::schedule;
use bench::shrink::{to_code, to_difference};
use bench::tally::counted;
use std::path::PathBuf;

fn program() -> PathBuf {
    external::program().unwrap_or_else(|why| panic!("{why}"))
}

fn checked(input: &[u8]) -> Checked {
    check(input, &copy_output(input)).unwrap_or_else(|why| panic!("{why}"))
}

/// What is malformed as a whole: checked, compared, and shrunk to one line.
fn all_malformed(input: &[u8], lines: usize, shown: &[u8]) {
    assert_eq!(checked(input), Checked { lines, set_ups: 0, started: 0, in_line: 0 });
    assert_eq!(compare_one(&program(), input), Ok(lines));
    assert_eq!(to_difference(&program(), input).err(), Some(nothing_differs(lines)));
    assert_eq!(to_code(input, 18).map(|shrunk| shrunk.schedule), Ok(shown.to_vec()));
}

fn nothing_differs(lines: usize) -> String {
    format!("nothing differs in {}", counted(lines as u64, "line"))
}

#[test]
fn bytes_that_are_no_text() {
    let mut rng = Prng::new(5);
    let bytes: Vec<u8> = (0..1_000_000).map(|_| rng.word() as u8).collect();
    let lines = bench::history::lines(&bytes).count();
    let first = bytes.split_inclusive(|&byte| byte == b'\n').next().unwrap_or_default();
    all_malformed(&bytes, lines, first);
    // As answers they are refused, whatever the schedule.
    assert!(check(b"R 1\n", &bytes).is_err() && check(&bytes, &bytes).is_err());
}

#[test]
fn a_line_of_a_hundred_megabytes() {
    let mut line = vec![b'1'; 100_000_000];
    all_malformed(&line, 1, &line);
    line.push(b'\n');
    all_malformed(&line, 1, &line);
    // As an answer it is a number far too great, shown by its beginning.
    let error = check(b"R 1\n", &line).expect_err("no answer");
    assert!(error.starts_with("answer 1 is not readable: \"1111") && error.len() < 400, "{error}");
}

#[test]
fn a_million_lines_without_a_machine() {
    all_malformed(&b"\n".repeat(1_000_000), 1_000_000, b"\n");
    all_malformed(&b"R 01\n".repeat(1_000_000), 1_000_000, b"R 01\n");
}

/// Each is refused in another way, on one machine.
#[test]
fn a_million_refused_lines() {
    let refused = [&b"S 1 1 1 0 1 1 9 7\n"[..], &b"D 1\nD 0\nT 2\nS 9 9 9 9 9 9 9 9\nG 1 1\n".repeat(200_000)].concat();
    assert_eq!(checked(&refused), Checked { lines: 1_000_001, set_ups: 1, started: 0, in_line: 0 });
    assert_eq!(compare_one(&program(), &refused), Ok(1_000_001));
    assert_eq!(to_difference(&program(), &refused).err(), Some(nothing_differs(1_000_001)));
    let shown = to_code(&refused, 18).map(|shrunk| shrunk.schedule);
    assert_eq!(shown, Ok(b"S 1 1 1 0 1 1 3 7\nD 0\n".to_vec()));
}

/// Answers that claim what is checked at some length: many set-ups, reads of one unfinished write.
#[test]
fn a_million_claims() {
    let set_up = b"S 8 1 1 0 1 1 9 7\n";
    assert_eq!(checked(&set_up.repeat(300_000)).set_ups, 300_000);
    let reads = 333_333;
    let input = [&set_up[..], &b"R 1\nD 1\n".repeat(reads), b"W 8 9\n", &b"R 1\nD 1\n".repeat(reads)].concat();
    let mut output = Vec::new();
    for (at, line) in bench::history::lines(&input).enumerate() {
        let answer = match line {
            b"D 1" if at < 2 * reads + 1 => "1 1 0 0 7 1",
            b"D 1" => "1 1 1 8 9 1",
            _ => "0 0 0 0 0 0",
        };
        output.extend(format!("{} {answer}\n", at + 1).bytes());
    }
    let told = check(&input, &output).unwrap_or_else(|why| panic!("{why}"));
    assert_eq!((told.started, told.in_line), (2 * reads + 1, 2 * reads + 1));
}

/// One digit of the answers is another: refused, but for a code that another state would give.
#[test]
fn answers_with_one_digit_changed() {
    let mut rng = Prng::new(6);
    let mut refused = 0;
    for seed in 0..2000 {
        let input = schedule(seed, 60);
        let mut output = copy_output(&input);
        let digits: Vec<usize> = (0..output.len()).filter(|&at| output[at].is_ascii_digit()).collect();
        let at = rng.pick(&digits);
        output[at] = b'0' + (output[at] - b'0' + rng.between(1, 9) as u8) % 10;
        refused += usize::from(check(&input, &output).is_err());
    }
    assert!(refused > 1900, "{refused} of 2000 were refused");
}
