//! `bench` as a program: help, wrong uses, files of every bad sort, outputs that fail.

use std::ffi::OsStr;
use std::fs::{self, File, Permissions};
use std::os::unix::ffi::OsStrExt;
use std::os::unix::fs::{MetadataExt, PermissionsExt};
use std::os::unix::process::CommandExt;
use std::path::PathBuf;
use std::process::{Command, Output, Stdio};

const BENCH: &str = env!("CARGO_BIN_EXE_bench");

fn bench(words: &[&str]) -> Output {
    Command::new(BENCH).args(words).output().expect("bench runs")
}

fn out(output: &Output) -> String {
    String::from_utf8_lossy(&output.stdout).into_owned()
}

fn errors(output: &Output) -> String {
    String::from_utf8_lossy(&output.stderr).into_owned()
}

/// A file that is gone at the end of its test.
struct Scratch(PathBuf);

impl Scratch {
    fn new(name: &str, bytes: &[u8]) -> Scratch {
        let path = Scratch::place(name);
        fs::write(&path, bytes).expect("a file");
        Scratch(path)
    }

    /// A program to be run at once: a process of its own copies it, since one that another test
    /// starts while this one writes would hold it open, and it would be busy.
    fn program(name: &str, from: &str) -> Scratch {
        let path = Scratch::place(name);
        assert!(Command::new("cp").arg(from).arg(&path).status().expect("cp starts").success());
        Scratch(path)
    }

    fn place(name: &str) -> PathBuf {
        std::env::temp_dir().join(format!("bench-{}-{name}", std::process::id()))
    }

    fn path(&self) -> &str {
        self.0.to_str().expect("a plain path")
    }
}

impl Drop for Scratch {
    fn drop(&mut self) {
        let _ = fs::remove_file(&self.0); // what is left is in the way of nobody
    }
}

/// The commands that `help` lists, with the names of the arguments that they must have.
fn listed() -> Vec<(String, Vec<String>)> {
    let help = out(&bench(&["help"]));
    let usage = |line: &str| {
        let (usage, _) = line.split_once("  ").expect("a usage and a word on it");
        let needed = usage.split(" [").next().unwrap_or_default();
        let mut words = needed.split_whitespace().skip(1).map(String::from);
        (words.next().expect("a name"), words.collect())
    };
    help.lines().map(usage).collect()
}

/// Arguments that are right but for the files' names.
fn right<'a>(arguments: &[String], path: &'a str) -> Vec<&'a str> {
    arguments.iter().map(|name| if name.starts_with("OUT") { "/nowhere/at/all.svg" } else { path }).collect()
}

/// Every command that takes a file, with this one.
fn on_every_command(path: &str) -> Vec<(String, Output)> {
    let takes = |(_, arguments): &(String, Vec<String>)| arguments.iter().any(|name| name == "FILE");
    let asked = listed().into_iter().filter(takes);
    asked
        .map(|(name, arguments)| (name.clone(), bench(&[&[name.as_str()], &right(&arguments, path)[..]].concat())))
        .collect()
}

#[test]
fn help_has_a_line_for_each_command() {
    let help = bench(&["help"]);
    assert!(help.status.success());
    for words in [&[][..], &["--help"], &["-h"]] {
        assert_eq!(bench(words).stdout, help.stdout);
        assert!(bench(words).status.success());
    }
    for (name, _) in listed() {
        let own = bench(&["help", &name]);
        assert!(own.status.success() && out(&own).starts_with(&format!("bench {name} ")), "{}", out(&own));
        assert_eq!(bench(&[&name, "--help"]).stdout, own.stdout);
    }
    assert!(listed().len() >= 12, "{}", out(&help));
}

#[test]
fn a_wrong_use_gets_the_line_of_its_command() {
    for (name, _) in listed() {
        for words in [&["1", "2", "3", "4", "5"][..], &[]] {
            let words = [&[name.as_str()], words].concat();
            if words == ["help"] {
                continue; // the one that asks for nothing
            }
            let wrong = bench(&words);
            assert_eq!(wrong.status.code(), Some(2), "{words:?}");
            assert!(errors(&wrong).contains(&format!("\nbench {name} ")), "{}", errors(&wrong));
            assert!(wrong.stdout.is_empty());
        }
    }
    let unknown = bench(&["dance"]);
    assert_eq!(unknown.status.code(), Some(2));
    assert!(errors(&unknown).starts_with("bench: there is no command dance\nbench generate "), "{}", errors(&unknown));
}

#[test]
fn numbers_are_checked() {
    let schedule = Scratch::new("numbers", b"S 1 1 1 0 1 1 6 7\n");
    let path = schedule.path();
    for words in [
        &["generate", "one", "5"][..],
        &["generate", "1", "0"],
        &["generate", "1", "-5"],
        &["generate", "1", "99999999999999999999"],
        &["night", "many"],
        &["night", "100000001"],
        &["tell", path, "0"],
        &["tell", path, "x"],
        &["soak", "0"],
        &["soak", "x"],
        &["soak", "1", "x"],
        &["shrink", path, "--code", "6"],
        &["shrink", path, "--code", "x"],
        &["shrink", path, "--code"],
        &["shrink", path, "--mark", "2"],
        &["shrink", path, "--mark"],
    ] {
        let wrong = bench(words);
        assert_eq!(wrong.status.code(), Some(2), "{words:?}: {}", errors(&wrong));
        assert_eq!(errors(&wrong).lines().count(), 2, "a sentence and the command's line: {}", errors(&wrong));
    }
    let beyond = bench(&["tell", path, "2"]);
    assert_eq!(
        (beyond.status.code(), errors(&beyond)),
        (Some(1), "bench: there is no line 2: the schedule has 1\n".to_string())
    );
}

#[test]
fn files_that_cannot_be_read() {
    let folder = std::env::temp_dir().to_string_lossy().into_owned();
    let empty = Scratch::new("empty", b"");
    let cases = [
        (folder.as_str(), "is a directory; a file is wanted"),
        ("/nowhere/at/all", "there is no file /nowhere/at/all"),
        (empty.path(), "is empty"),
    ];
    for (path, sentence) in cases {
        for (name, failed) in on_every_command(path) {
            // The proved program takes an empty schedule: it has no line to answer.
            if name == "run" && path == empty.path() {
                assert!(failed.status.success() && failed.stdout.is_empty());
                continue;
            }
            assert_eq!(failed.status.code(), Some(1), "{name} {path}: {}", errors(&failed));
            assert!(errors(&failed).contains(sentence), "{name} {path}: {}", errors(&failed));
        }
    }
}

/// Nobody may read it: where the test itself may do all, it asks as somebody who may not.
#[test]
fn a_file_without_permission() {
    let locked = Scratch::new("locked", b"S 1 1 1 0 1 1 6 7\n");
    fs::set_permissions(locked.path(), Permissions::from_mode(0o000)).expect("permissions");
    let program = Scratch::program("for-all", BENCH);
    fs::set_permissions(program.path(), Permissions::from_mode(0o755)).expect("permissions");
    let mut command = Command::new(program.path());
    if fs::metadata(locked.path()).expect("a file").uid() == 0 {
        command.uid(65534);
    }
    let failed = command.args(["tell", locked.path()]).output().expect("bench runs");
    assert_eq!(failed.status.code(), Some(1));
    assert!(errors(&failed).ends_with("locked may not be read\n"), "{}", errors(&failed));
}

#[test]
fn bytes_that_are_no_text() {
    let every: Vec<u8> = (0..=255).collect();
    let bytes = Scratch::new("bytes", &[b"S 1 1 1 0 1 1 6 7\n", &every[..], b"\n\xff\xfe\n"].concat());
    let told = bench(&["tell", bytes.path()]);
    assert!(told.status.success() && told.stdout.is_ascii());
    assert_eq!(out(&told).lines().filter(|line| line.contains("18 BAD ARGUMENT")).count(), 3);
    let odd = Command::new(BENCH).arg(OsStr::from_bytes(b"\xff")).output().expect("bench runs");
    assert_eq!(odd.status.code(), Some(2));
}

#[test]
fn a_line_of_a_hundred_megabytes() {
    let long = Scratch::new("long", &[b"S 1 1 1 0 1 1 6 7\n", &vec![b'9'; 100_000_000][..], b"\nR 1\n"].concat());
    let path = long.path();
    let told = out(&bench(&["tell", path]));
    assert!(told.contains("\n2: 9999") && told.contains("(100000000 bytes) -> 18 BAD ARGUMENT"), "{told}");
    assert!(told.len() < 1000 && told.contains("\n3: R 1 -> 0 DONE"), "{told}");
    assert_eq!(out(&bench(&["rehearse", path])), "1 0 0 0 0 0 0\n2 18 0 0 0 0 0\n3 0 0 0 0 0 0\n");
    assert_eq!(bench(&["rehearse", path]).stdout, bench(&["run", path]).stdout);
}

#[test]
fn a_million_refused_lines() {
    let refused = Scratch::new("million", &[b"S 1 1 1 0 1 1 6 7\n".to_vec(), b"Q\n".repeat(1_000_000)].concat());
    let told = bench(&["tell", refused.path()]);
    assert!(told.status.success());
    assert_eq!(out(&told).lines().count(), 1_000_001);
    assert!(out(&told).ends_with("1000001: Q -> 18 BAD ARGUMENT: it begins with none of S, C, R, W, D, G, T, X\n"));
}

/// On a full disk every command that prints fails and says so; where the reader goes away, it ends quietly.
#[test]
fn outputs_that_fail() {
    let schedule = Scratch::new("outputs", &bench(&["generate", "1", "3000"]).stdout);
    let path = schedule.path();
    for words in [&["help"][..], &["generate", "1", "5"], &["rehearse", path], &["run", path], &["tell", path]] {
        let full = File::create("/dev/full").expect("a disk that is full");
        let failed = Command::new(BENCH).args(words).stdout(full).output().expect("bench runs");
        assert_eq!(failed.status.code(), Some(1), "{words:?}: {}", errors(&failed));
        assert!(errors(&failed).contains("No space left on device"), "{words:?}: {}", errors(&failed));
        let mut child =
            Command::new(BENCH).args(words).stdout(Stdio::piped()).stderr(Stdio::piped()).spawn().expect("bench runs");
        drop(child.stdout.take());
        let left = child.wait_with_output().expect("it ends");
        assert!(left.status.success() && left.stderr.is_empty(), "{words:?}: {}", errors(&left));
    }
}
