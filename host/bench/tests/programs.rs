//! The proved program as a process: a good run, an output that fails, an argument.

#[path = "../../copy/tests/common/process.rs"]
mod process;

use bench::external;
use process::Program;

/// Of an argument standard error alone tells.
fn rehearse() -> Program {
    let path = external::program().unwrap_or_else(|why| panic!("{why}"));
    Program { name: "rehearse", path, failed: 1, misused: 0 }
}

#[test]
fn a_good_run_is_quiet() {
    process::good_run_is_quiet(&rehearse());
}

#[test]
fn a_failing_output_is_told() {
    process::failing_output_is_told(&rehearse());
}

#[test]
fn an_argument_is_refused() {
    process::argument_is_refused(&rehearse());
}
