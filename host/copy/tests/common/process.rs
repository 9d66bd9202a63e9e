//! What is asked of a rehearsal program as a process, proved or not.

use std::fs::{read_to_string, File, OpenOptions};
use std::io::{pipe, Seek, Write};
use std::path::{Path, PathBuf};
use std::process::{Command, Stdio};

pub struct Program {
    pub name: &'static str,
    pub path: PathBuf,
    /// The status where the output fails.
    pub failed: i32,
    /// The status where there is an argument.
    pub misused: i32,
}

/// Status, standard output, standard error.
type Ended = (Option<i32>, String, String);

fn run(program: &Program, arguments: &[&str], input: impl Into<Stdio>, output: impl Into<Stdio>) -> Ended {
    let mut command = Command::new(&program.path);
    let ended = command.args(arguments).stdin(input).stdout(output).output().expect("the program starts");
    let text = |bytes| String::from_utf8(bytes).expect("it writes text");
    (ended.status.code(), text(ended.stdout), text(ended.stderr))
}

/// `stdin` or `stdout` of the worked schedule.
fn worked(file: &str) -> PathBuf {
    Path::new(env!("CARGO_MANIFEST_DIR")).join("../../crates/rehearse").join(file)
}

fn schedule() -> File {
    File::open(worked("stdin")).expect("the worked schedule")
}

/// A disk with no room; made nowhere, so that a test without one fails.
pub fn full_disk() -> File {
    OpenOptions::new().write(true).open("/dev/full").expect("/dev/full")
}

pub fn good_run_is_quiet(program: &Program) {
    let answers = read_to_string(worked("stdout")).expect("the worked answers");
    let ended = run(program, &[], schedule(), Stdio::piped());
    assert_eq!(ended, (Some(0), answers, String::new()));
}

/// Also where all that is to be written is the answer to a last line without its end.
pub fn failing_output_is_told(program: &Program) {
    let sentence = format!("{}: the output could not be written: No space left on device", program.name);
    for input in ["R 1\n", "R 1"] {
        let (reader, mut writer) = pipe().expect("a pipe");
        writer.write_all(input.as_bytes()).expect("a pipe has room for a line");
        drop(writer);
        let (status, _, errors) = run(program, &[], reader, full_disk());
        assert_eq!(status, Some(program.failed), "{input:?}: {errors}");
        assert!(errors.starts_with(&sentence), "{input:?}: {errors}");
        assert_eq!(errors.lines().count(), 1, "{input:?}: {errors}");
    }
}

pub fn argument_is_refused(program: &Program) {
    let usage = format!("usage: {} < SCHEDULE > ANSWERS\n", program.name);
    for arguments in [&["schedule.txt"][..], &[""], &["--names", "-"]] {
        let mut input = schedule();
        // Both handles have one place in the file, so a read by the program would be seen here.
        let lent = input.try_clone().expect("a second handle");
        let ended = run(program, arguments, lent, Stdio::piped());
        assert_eq!(ended, (Some(program.misused), String::new(), usage.clone()), "{arguments:?}");
        assert_eq!(input.stream_position().expect("a place"), 0, "{arguments:?}: the input was read");
    }
}
