//! What README shows is what the bench prints.

use bench::history::raw_lines;
use bench::tell::{machine_after, Teller};
use bench::why::why;
use std::path::Path;
use std::process::Command;

fn tree(file: &str) -> String {
    let path = Path::new(env!("CARGO_MANIFEST_DIR")).join("../..").join(file);
    std::fs::read_to_string(path).unwrap_or_else(|error| panic!("{file}: {error}"))
}

/// As a block of README.
fn indented(text: &str) -> String {
    text.lines().map(|line| format!("    {line}\n")).collect()
}

#[test]
fn the_example_told() {
    let example = tree("docs/example.txt");
    let told = machine_after(example.as_bytes(), 42).expect("line 42");
    assert!(tree("README.md").contains(&indented(&told)), "bench tell docs/example.txt 42 prints\n{told}");
    let size = format!("a schedule of {} lines", example.lines().count());
    assert!(tree("README.md").contains(&size), "{size}");
}

/// A read that asked for a page and got a newer one.
#[test]
fn a_newer_page_told() {
    let mut teller = Teller::new();
    let example = tree("docs/example.txt");
    let all: Vec<String> = raw_lines(example.as_bytes()).map(|raw| teller.take(raw).to_string()).collect();
    let told = all[29..32].concat();
    assert!(told.contains("READ ENDED") && told.contains("newer than asked"), "{told}");
    assert!(tree("README.md").contains(&indented(&told)), "bench tell docs/example.txt prints\n{told}");
}

#[test]
fn why_operations_hang() {
    for schedule in ["S 1 3 1 0 2 2 9 7\nR 1\nX 2 1\nX 2 3\n", "S 1 3 3 1 2 2 99 7\nW 1 9\nD 1\n"] {
        let told = why(schedule.as_bytes()).text;
        let block = format!("{}\n{}", indented(schedule), indented(&told));
        assert!(tree("README.md").contains(&block), "bench why prints\n{told}");
    }
}

/// Every command stands in the walk.
#[test]
fn every_command_is_walked() {
    let help = Command::new(env!("CARGO_BIN_EXE_bench")).output().expect("bench runs").stdout;
    let readme = tree("README.md");
    for line in String::from_utf8_lossy(&help).lines() {
        let usage: Vec<&str> = line.split(' ').take(2).collect();
        assert!(readme.contains(&format!("\n    {}", usage.join(" "))), "{line}");
    }
}

/// The bench's lines of the walk, in their order and in an empty directory, end well. Soak alone
/// is left out: it takes its minute.
#[test]
fn the_walk_runs() {
    let readme = tree("README.md");
    let commands = readme.split("\n## ").find(|section| section.starts_with("Commands\n")).expect("the walk");
    let walk: Vec<&str> = commands.lines().filter(|line| line.starts_with("    bench ")).collect();
    let program = Path::new(env!("CARGO_BIN_EXE_bench")).parent().expect("a directory");
    let path = format!("{}:{}", program.display(), std::env::var("PATH").unwrap_or_default());
    let place = std::env::temp_dir().join(format!("bench-walk-{}", std::process::id()));
    std::fs::create_dir(&place).expect("an empty directory");
    for line in walk.iter().filter(|line| !line.contains(" soak ")) {
        let run = Command::new("sh").args(["-c", line]).current_dir(&place).env("PATH", &path).output();
        let ended = run.expect("a shell");
        assert!(ended.status.success(), "{line}: {}", String::from_utf8_lossy(&ended.stderr));
    }
    assert!(walk.len() > 12, "{walk:?}");
    std::fs::remove_dir_all(place).expect("the directory can go");
}
