//! Standard output and standard error.

use std::io::{self, ErrorKind, IsTerminal, Write};

pub fn print(bytes: &[u8]) -> Result<(), String> {
    let mut out = io::stdout().lock();
    quietly(out.write_all(bytes).and_then(|()| out.flush()))
}

/// Texts as they come, so that much is said while it is found out.
pub fn print_all(texts: impl Iterator<Item = impl std::fmt::Display>) -> Result<(), String> {
    let mut out = io::BufWriter::with_capacity(1 << 16, io::stdout().lock());
    let mut texts = texts;
    quietly(texts.try_for_each(|text| write!(out, "{text}")).and_then(|()| out.flush()))
}

/// A reader that went away is no failure.
fn quietly(result: io::Result<()>) -> Result<(), String> {
    match result {
        Err(error) if error.kind() != ErrorKind::BrokenPipe => Err(format!("the output failed: {error}")),
        _ => Ok(()),
    }
}

/// On standard error; where that fails too, the status is left to say it.
pub fn note(text: &str) {
    let _ = io::stderr().write_all(text.as_bytes());
}

/// One line of a terminal, ever again; nothing in a log.
pub fn rewrite(line: &str) {
    if io::stderr().is_terminal() {
        note(&format!("\r{line:79}{}", if line.is_empty() { "\r" } else { "" }));
    }
}
