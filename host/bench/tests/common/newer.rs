//! A read that has asked replica 1 for (0,0) while client 1 writes page 9: it gets the tag asked
//! for, unless replica 1 tidies first.

const ASKED: &str = "S 2 1 1 0 1 1 99 7\nR 2\nD 1\nD 1\nD 1\nD 1\n";

pub fn exact() -> String {
    read_after("")
}

pub fn newer() -> String {
    read_after("T 1\n")
}

/// The write ends and is secured, and the read has waited until now.
fn read_after(tidied: &str) -> String {
    let written = format!("W 1 9\n{}", "D 2\n".repeat(7));
    format!("{ASKED}{written}{tidied}D 1\nD 1\n")
}
