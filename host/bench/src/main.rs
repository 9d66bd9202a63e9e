//! `bench`: makes, runs, compares, tells, draws and explains schedules.
#![forbid(unsafe_code)]

mod asking;
mod commands;
mod saying;

use asking::{misuse, Done, Trouble};
use commands::{find, help, line_of, lines_of_all};
use saying::note;
use std::process::ExitCode;

fn main() -> ExitCode {
    let arguments: Vec<String> =
        std::env::args_os().skip(1).map(|argument| argument.to_string_lossy().into_owned()).collect();
    let words: Vec<&str> = arguments.iter().map(String::as_str).collect();
    match words.as_slice() {
        [] | ["--help" | "-h"] => outcome(help(&[]), &lines_of_all()),
        [name, "--help" | "-h"] => outcome(help(&[name]), &lines_of_all()),
        [name, rest @ ..] => match find(name) {
            Some(command) => outcome((command.run)(rest), &line_of(command)),
            None => outcome(misuse(format!("there is no command {name}")), &lines_of_all()),
        },
    }
}

/// A failure has status 1; a wrong use has 2, and is told how to use it.
fn outcome(result: Done, usage: &str) -> ExitCode {
    match result {
        Ok(()) => ExitCode::SUCCESS,
        Err(Trouble::Failure(why)) => {
            note(&format!("bench: {why}\n"));
            ExitCode::FAILURE
        }
        Err(Trouble::Misuse(why)) => {
            note(&format!("bench: {why}\n{usage}"));
            ExitCode::from(2)
        }
    }
}
