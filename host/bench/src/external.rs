//! Running the program under comparison.

use std::fs::File;
use std::io::{self, Read, Write};
use std::os::unix::process::ExitStatusExt;
use std::path::{Path, PathBuf};
use std::process::{Command, Stdio};

/// The program: REHEARSE, or `../crates/rehearse/out/rehearse` seen from the workspace, where a build leaves it.
pub fn program() -> Result<PathBuf, String> {
    let named = std::env::var_os("REHEARSE").unwrap_or_else(|| "../crates/rehearse/out/rehearse".into());
    let workspace = Path::new(env!("CARGO_MANIFEST_DIR")).join("..");
    // Tests run in the directory of their crate, so a short path counts from the workspace too.
    let places = [PathBuf::from(&named), workspace.join(&named)];
    let missing =
        || format!("no program to compare with at {}: build it, or set REHEARSE to its path", named.display());
    places.into_iter().find(|path| path.is_file()).ok_or_else(missing)
}

/// What the program prints for an input, or why it cannot be run.
pub fn run(program: &Path, input: &[u8]) -> Result<Vec<u8>, String> {
    answers(program, input).map_err(|error| format!("{} cannot be run: {error}", program.display()))
}

fn answers(program: &Path, input: &[u8]) -> io::Result<Vec<u8>> {
    let mut child = Command::new(program).stdin(Stdio::piped()).stdout(Stdio::piped()).spawn()?;
    let mut stdin = child.stdin.take().expect("stdin is piped");
    let mut stdout = child.stdout.take().expect("stdout is piped");
    let mut output = Vec::with_capacity(2 * input.len());
    // Both directions at once: pipes are short. A program that stops early shows as missing lines.
    let read = std::thread::scope(|scope| {
        scope.spawn(move || drop(stdin.write_all(input)));
        stdout.read_to_end(&mut output)
    });
    child.wait()?;
    read.map(|_| output)
}

/// Runs the program on a file, its answers going where ours go. What it says on standard error is
/// its failure, whatever its status.
pub fn pass(program: &Path, schedule: File) -> Result<(), String> {
    const READER_GONE: i32 = 13; // SIGPIPE
    let run = Command::new(program).stdin(schedule).stdout(Stdio::inherit()).stderr(Stdio::piped()).output();
    let ended = run.map_err(|error| format!("{} cannot be run: {error}", program.display()))?;
    match String::from_utf8_lossy(&ended.stderr).trim_end() {
        "" if ended.status.success() || ended.status.signal() == Some(READER_GONE) => Ok(()),
        "" => Err(format!("{}: {}", program.display(), ended.status)),
        said => Err(said.to_string()),
    }
}
