//! The commands on one file: what they print where, and their status.

use std::path::PathBuf;
use std::process::Command;

/// A file of this test's own.
fn file(name: &str, text: &[u8]) -> String {
    let path = PathBuf::from(env!("CARGO_TARGET_TMPDIR")).join(name);
    std::fs::write(&path, text).unwrap_or_else(|error| panic!("{}: {error}", path.display()));
    path.display().to_string()
}

/// Status, output and the first line of the errors.
fn bench(program: &str, arguments: &[&str]) -> (Option<i32>, String, String) {
    let run = Command::new(env!("CARGO_BIN_EXE_bench")).env("REHEARSE", program).args(arguments).output();
    let run = run.unwrap_or_else(|error| panic!("{error}"));
    let text = |bytes: &[u8]| String::from_utf8_lossy(bytes).into_owned();
    let error = text(&run.stderr).lines().next().unwrap_or_default().to_string();
    (run.status.code(), text(&run.stdout), error)
}

fn said(status: i32, output: &str, error: &str) -> (Option<i32>, String, String) {
    (Some(status), output.to_string(), error.to_string())
}

#[test]
fn checks() {
    let schedule = file("checks.txt", b"R 1\n");
    let right = file("checks-right.txt", b"1 17 0 0 0 0 0\n");
    let wrong = file("checks-wrong.txt", b"1 6 0 0 0 0 0\n");
    let line = "1 line: numbers, codes and fields are as listed; 0 set-ups; 0 operations in one line, of 0 started\n";
    assert_eq!(bench("", &["check", &schedule, &right]), said(0, line, ""));
    assert_eq!(bench("", &["check", &schedule, &wrong]), said(1, "", "bench: line 1: 6 is no listed code"));
}

/// `cat` answers a malformed line rightly where it is its own answer.
#[test]
fn compares() {
    let right = file("compares-right.txt", b"1 18 0 0 0 0 0\n");
    let wrong = file("compares-wrong.txt", b"R 1\n");
    assert_eq!(bench("/bin/cat", &["compare", &right]), said(0, "equal: 1 line\n", ""));
    let differs = "bench: line 1, \"R 1\": the copy prints \"1 17 0 0 0 0 0\", the program \"R 1\"";
    assert_eq!(bench("/bin/cat", &["compare", &wrong]), said(1, "", differs));
    let missing = "bench: no program to compare with at no-such-program: build it, or set REHEARSE to its path";
    assert_eq!(bench("no-such-program", &["compare", &wrong]), said(1, "", missing));
}

#[test]
fn shrinks() {
    let schedule = file("shrinks.txt", b"1 18 0 0 0 0 0\nS 1 1 1 0 1 1 3 7\nD 1\nR 1\nR 1\n");
    let (busy, note) = ("S 1 1 1 0 1 1 3 7\nR 1\nR 1\n", "3 of 5 lines; no line can be spared");
    assert_eq!(bench("", &["shrink", &schedule, "--code", "20"]), said(0, busy, note));
    assert_eq!(bench("", &["shrink", "--code", "20", &schedule]), said(0, busy, note));
    assert_eq!(bench("", &["shrink", &schedule, "--code", "24"]), said(1, "", "bench: no line gets 24 NO SLOT"));
    let unlisted = "bench: CODE is one of 0, 1, 2, 3, 4, 5, 16, 17, 18, 19, 20, 21, 22, 23, 24, not 6";
    assert_eq!(bench("", &["shrink", &schedule, "--code", "6"]), said(2, "", unlisted));
    let misused = "bench: FILE is wanted, and nothing else but --code CODE or --mark MARK";
    assert_eq!(bench("", &["shrink", "--code"]), said(2, "", misused));
    assert_eq!(bench("", &["shrink", "--mark"]), said(2, "", misused));
    let (line, note) = ("S 1 1 1 0 1 1 3 7\n", "1 of 5 lines; no line can be spared");
    assert_eq!(bench("/bin/cat", &["shrink", &schedule]), said(0, line, note));
    let right = file("shrinks-right.txt", b"1 18 0 0 0 0 0\n");
    assert_eq!(bench("/bin/cat", &["shrink", &right]), said(1, "", "bench: nothing differs in 1 line"));
}

#[test]
fn shrinks_to_a_mark() {
    let read = format!("S 1 1 1 0 1 1 3 7\nR 1\n{}", "D 1\n".repeat(6));
    let schedule = file("marks.txt", read.as_bytes());
    let note = "8 of 8 lines; no line can be spared";
    assert_eq!(bench("", &["shrink", &schedule, "--mark", "1"]), said(0, &read, note));
    assert_eq!(bench("", &["shrink", "--mark", "1", &schedule]), said(0, &read, note));
    let unlisted = "bench: MARK is a number from 0 to 1, not 2";
    assert_eq!(bench("", &["shrink", &schedule, "--mark", "2"]), said(2, "", unlisted));
}

#[test]
fn soaks() {
    let misused = "bench: MINUTES is wanted, and nothing else but a SEED";
    assert_eq!(bench("/bin/cat", &["soak"]), said(2, "", misused));
    let (status, output, error) = bench("/bin/cat", &["soak", "1", "3"]);
    assert_eq!((status, output.as_str()), (Some(1), "seed 3\n"));
    assert!(error.starts_with("bench: seed 3: line 1, \"S "), "{error}");
}
