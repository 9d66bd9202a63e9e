//! The copy as a process: a good run, an output that fails, an argument.

#[path = "common/process.rs"]
mod process;

use process::Program;
use std::process::{Command, Stdio};

fn copy() -> Program {
    Program { name: "copy", path: env!("CARGO_BIN_EXE_copy").into(), failed: 1, misused: 2 }
}

#[test]
fn a_good_run_is_quiet() {
    process::good_run_is_quiet(&copy());
}

#[test]
fn a_failing_output_is_told() {
    process::failing_output_is_told(&copy());
}

#[test]
fn an_argument_is_refused() {
    process::argument_is_refused(&copy());
}

#[test]
fn the_status_tells_where_standard_error_is_full_too() {
    let mut command = Command::new(copy().path);
    command.arg("--names").stdin(Stdio::null()).stderr(process::full_disk());
    assert_eq!(command.status().expect("the copy starts").code(), Some(2));
}
