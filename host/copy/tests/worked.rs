//! The worked example of the paper and the odd lines, through the built program.

use std::io::{Read, Write};
use std::process::{Command, Stdio};

fn copy_output(input: &[u8]) -> String {
    let mut child = Command::new(env!("CARGO_BIN_EXE_copy"))
        .stdin(Stdio::piped())
        .stdout(Stdio::piped())
        .spawn()
        .expect("the copy starts");
    let mut stdin = child.stdin.take().expect("piped");
    let input = input.to_vec();
    let writer = std::thread::spawn(move || stdin.write_all(&input));
    let mut out = String::new();
    child.stdout.take().expect("piped").read_to_string(&mut out).expect("text comes back");
    writer.join().expect("writer ends").expect("all input is taken");
    assert!(child.wait().expect("the copy ends").success());
    out
}

/// Code of each line printed.
fn codes(input: &[u8]) -> Vec<u32> {
    let text = copy_output(input);
    let code = |line: &str| line.split(' ').nth(1).and_then(|field| field.parse().ok());
    text.lines().map(|line| code(line).expect("a code")).collect()
}

#[test]
fn worked_example() {
    let input = format!("S 1 1 1 0 1 1 6 7\nW 1 9\n{}R 1\n{}R 1\n", "D 1\n".repeat(6), "D 2\n".repeat(6));
    let expected = "1 0 0 0 0 0 0\n2 0 0 0 0 0 0\n3 0 0 0 0 0 0\n4 0 0 0 0 0 0\n5 0 0 0 0 0 0\n6 0 0 0 0 0 0\n\
        7 0 0 0 0 0 0\n8 2 1 1 1 0 0\n9 0 0 0 0 0 0\n10 0 0 0 0 0 0\n11 0 0 0 0 0 0\n12 0 0 0 0 0 0\n\
        13 0 0 0 0 0 0\n14 0 0 0 0 0 0\n15 1 1 1 1 9 1\n16 21 0 0 0 0 0\n";
    assert_eq!(copy_output(input.as_bytes()), expected);
}

#[test]
fn empty_input_prints_nothing() {
    assert_eq!(copy_output(b""), "");
}

#[test]
fn last_line_without_end() {
    assert_eq!(copy_output(b"S 1 1 1 0 1 1 6 7"), "1 18 0 0 0 0 0\n");
    assert_eq!(codes(b"S 1 1 1 0 1 1 6 7\nR 1"), [0, 18]);
    // The machine was not called, so the client is still idle.
    assert_eq!(codes(b"S 1 1 1 0 1 1 6 7\nR 1\nR 1\n"), [0, 0, 20]);
}

#[test]
fn malformed_before_set_up_and_after() {
    assert_eq!(codes(b"\nR 1\nR 9\nD 0\nR 01\nS 0 1 1 0 1 1 6 7\nG 1 1\n"), [18, 17, 17, 17, 18, 18, 17]);
    let odd: [&[u8]; 24] = [
        b"",
        b" ",
        b"R",
        b"R ",
        b" R 1",
        b"R 1 ",
        b"R  1",
        b"R\t1",
        b"R 1\r",
        b"r 1",
        b"R 01",
        b"R 00",
        b"R 4294967296",
        b"R 99999999999",
        b"R -1",
        b"R +1",
        b"R 1 1",
        b"W 1",
        b"\0",
        b"\xff",
        b"R 1\0",
        b"R 1\xff",
        b"Q 1",
        b"R 1\x0b",
    ];
    for line in odd {
        let input = [b"S 1 1 1 0 1 1 6 7\n", line, b"\nR 1\n"].concat();
        assert_eq!(codes(&input), [0, 18, 0], "{:?}", String::from_utf8_lossy(line));
    }
    assert_eq!(codes(b"S 1 1 1 0 1 1 6 7\nR 0\nR 2\nR 4294967295\nR 1\n"), [0, 18, 18, 18, 0]);
}

#[test]
fn refused_set_up_keeps_the_machine() {
    assert_eq!(codes(b"S 1 1 1 0 1 1 6 7\nR 1\nS 1 1 1 0 1 1 2 7\nR 1\n"), [0, 0, 18, 20]);
}

#[test]
fn lines_of_any_length() {
    for length in [79, 80, 81, 82, 65_535, 65_536, 65_537, 1_000_000] {
        let long = vec![b'R'; length];
        let input = [b"S 1 1 1 0 1 1 6 7\n", &long[..], b"\nR 1\n", &long[..]].concat();
        assert_eq!(codes(&input), [0, 18, 0, 18], "{length}");
    }
}

#[test]
fn a_reader_that_goes_away_ends_it() {
    let mut child = Command::new(env!("CARGO_BIN_EXE_copy"))
        .stdin(Stdio::piped())
        .stdout(Stdio::piped())
        .stderr(Stdio::piped())
        .spawn()
        .expect("the copy starts");
    drop(child.stdout.take());
    let mut stdin = child.stdin.take().expect("piped");
    // Writing fails once the program is gone; either way it must end by itself.
    while stdin.write_all(&b"R 1\n".repeat(10_000)).is_ok() {}
    let mut errors = String::new();
    child.stderr.take().expect("piped").read_to_string(&mut errors).expect("text");
    assert!(child.wait().expect("the copy ends").success());
    assert_eq!(errors, "");
}
