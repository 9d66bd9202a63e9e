//! `bench draw`: the ending of OUT says what is drawn.

use std::path::{Path, PathBuf};
use std::process::{Command, Output};

fn folder(name: &str) -> PathBuf {
    let folder = Path::new(env!("CARGO_TARGET_TMPDIR")).join(name);
    let _ = std::fs::remove_dir_all(&folder); // of a run before
    std::fs::create_dir_all(&folder).expect("a folder");
    std::fs::write(folder.join("two.txt"), "S 1 1 1 0 1 1 6 7\nR 1\n").expect("a schedule");
    folder
}

fn draw(folder: &Path, out: &str) -> Output {
    let (file, out) = (folder.join("two.txt"), folder.join(out));
    Command::new(env!("CARGO_BIN_EXE_bench")).arg("draw").arg(file).arg(out).output().expect("it runs")
}

#[test]
fn a_picture_or_a_page() {
    let folder = folder("drawn");
    for (out, begin) in [("two.svg", "<svg"), ("two.html", "<!DOCTYPE html>")] {
        let output = draw(&folder, out);
        assert!(output.status.success() && output.stdout.is_empty() && output.stderr.is_empty());
        assert!(std::fs::read_to_string(folder.join(out)).expect("a file").starts_with(begin));
    }
    let page = std::fs::read_to_string(folder.join("two.html")).expect("a page");
    assert!(page.contains("<title>two.txt</title>"), "called after its file, not its folder");
}

#[test]
fn another_ending_is_misuse() {
    let folder = folder("misuse");
    for out in ["two.png", "two", "svg", ".html", "two.svg.gz", "two.SVG"] {
        let output = draw(&folder, out);
        let said = String::from_utf8_lossy(&output.stderr).into_owned();
        assert_eq!(output.status.code(), Some(2), "{out}");
        assert!(said.starts_with("bench: OUT ends in .svg or .html") && said.contains("bench draw FILE OUT"), "{said}");
        assert!(!folder.join(out).exists());
    }
}
