//! `copy`: reads a schedule on standard input, prints a line for each line.
#![forbid(unsafe_code)]

use copy::Rehearsal;
use std::io::{self, ErrorKind, Read, Write};
use std::process::ExitCode;

const CHUNK: usize = 1 << 16;

fn main() -> ExitCode {
    if std::env::args_os().len() > 1 {
        return failed(2, "usage: copy < SCHEDULE > ANSWERS");
    }
    match rehearse(&mut io::stdin().lock(), &mut io::stdout().lock()) {
        // A reader that went away is no error of the schedule, so the end is quiet.
        Err(error) if error.kind() != ErrorKind::BrokenPipe => {
            failed(1, &format!("copy: the output could not be written: {error}"))
        }
        _ => ExitCode::SUCCESS,
    }
}

fn failed(status: u8, why: &str) -> ExitCode {
    // Standard error may be on the same full disk: the status tells all the same, where `eprintln` would panic.
    let _ = writeln!(io::stderr(), "{why}");
    ExitCode::from(status)
}

fn rehearse(input: &mut impl Read, output: &mut impl Write) -> io::Result<()> {
    let mut rehearsal = Rehearsal::new();
    let mut chunk = vec![0; CHUNK];
    let mut out = Vec::with_capacity(2 * CHUNK);
    loop {
        let length = match input.read(&mut chunk) {
            Ok(length) => length,
            Err(error) if error.kind() == ErrorKind::Interrupted => continue,
            Err(_) => 0, // input that cannot be read is at its end
        };
        if length == 0 {
            rehearsal.finish(&mut out);
        } else {
            rehearsal.feed(&chunk[..length], &mut out);
        }
        // One write per chunk: whoever types lines sees each answer at once.
        output.write_all(&out)?;
        output.flush()?;
        out.clear();
        if length == 0 {
            return Ok(());
        }
    }
}
