//! Files, with a sentence for each way to fail.

use std::fs::File;
use std::io::{self, ErrorKind, Read};
use std::path::Path;

/// All of a file that must have something in it.
pub fn read(file: &str) -> Result<Vec<u8>, String> {
    let mut bytes = Vec::new();
    open(file)?.read_to_end(&mut bytes).map_err(|error| unreadable(file, &error))?;
    if bytes.is_empty() {
        return Err(format!("{file} is empty"));
    }
    Ok(bytes)
}

pub fn open(file: &str) -> Result<File, String> {
    if Path::new(file).is_dir() {
        return Err(format!("{file} is a directory; a file is wanted"));
    }
    File::open(file).map_err(|error| unreadable(file, &error))
}

fn unreadable(file: &str, error: &io::Error) -> String {
    match error.kind() {
        ErrorKind::NotFound => format!("there is no file {file}"),
        ErrorKind::PermissionDenied => format!("{file} may not be read"),
        _ => format!("{file} cannot be read: {error}"),
    }
}

pub fn write(file: &str, text: &str) -> Result<(), String> {
    std::fs::write(file, text).map_err(|error| format!("{file} cannot be written: {error}"))
}
