//! Codes, kinds, phases, parties and sets in words.

use crate::open::members;
use copy::answer::*;
use copy::layout::Party;
use copy::Tag;

/// The table of codes.
pub const CODES: [(u32, &str); 15] = [
    (DONE, "DONE"),
    (READ_ENDED, "READ ENDED"),
    (WRITE_ENDED, "WRITE ENDED"),
    (WRITE_SPENT, "WRITE SPENT"),
    (DROPPED, "DROPPED"),
    (STALE, "STALE"),
    (SIZE, "SIZE"),
    (BAD_MACHINE, "BAD MACHINE"),
    (BAD_ARGUMENT, "BAD ARGUMENT"),
    (DOWN, "DOWN"),
    (BUSY, "BUSY"),
    (WORN, "WORN"),
    (EMPTY, "EMPTY"),
    (FULL, "FULL"),
    (NO_SLOT, "NO SLOT"),
];

/// The name of a listed code.
pub fn code_name(code: u32) -> Option<&'static str> {
    CODES.iter().find(|(listed, _)| *listed == code).map(|(_, name)| *name)
}

/// "21 WORN".
pub fn code(code: u32) -> String {
    format!("{code} {}", code_name(code).unwrap_or("is no listed code"))
}

pub fn kind_name(kind: u32) -> &'static str {
    const NAMES: [&str; 16] = [
        "",
        "rread",
        "rwrite",
        "wread",
        "wwrite",
        "rread-ok",
        "rwrite-ok",
        "wread-ok",
        "wwrite-ok",
        "read",
        "write",
        "secure",
        "read-ok",
        "write-ok",
        "notice",
        "gossip",
    ];
    NAMES.get(kind as usize).copied().unwrap_or("")
}

/// What a client does in a phase.
pub fn doing(phase: u32) -> &'static str {
    const DOING: [&str; 7] = [
        "idle",
        "asking directories for the newest tag",
        "telling directories the tag it read",
        "asking replicas for the page",
        "asking directories for the newest tag",
        "sending the page to replicas",
        "telling directories where the page is",
    ];
    DOING.get(phase as usize).copied().unwrap_or("")
}

pub fn party_name(party: Party) -> &'static str {
    match party {
        Party::Client => "client",
        Party::Directory => "directory",
        Party::Replica => "replica",
    }
}

/// "replica 3", "replicas 1 and 4", "replicas 1, 2 and 4"; a set with no member is "no replica".
pub fn parties(party: Party, set: u32) -> String {
    let (one, many) = match party {
        Party::Client => ("client", "clients"),
        Party::Directory => ("directory", "directories"),
        Party::Replica => ("replica", "replicas"),
    };
    let ids: Vec<String> = members(set).map(|id| id.to_string()).collect();
    match ids.len() {
        0 => format!("no {one}"),
        1 => format!("{one} {}", listed(&ids)),
        _ => format!("{many} {}", listed(&ids)),
    }
}

/// "1, 2 and 4".
pub fn listed(names: &[String]) -> String {
    match names {
        [before @ .., last] if !before.is_empty() => format!("{} and {last}", before.join(", ")),
        _ => names.concat(),
    }
}

pub fn commas(set: u32) -> String {
    members(set).map(|id| id.to_string()).collect::<Vec<_>>().join(", ")
}

/// "{1, 2}".
pub fn set(set: u32) -> String {
    format!("{{{}}}", commas(set))
}

/// "(3,1)".
pub fn tag(tag: Tag) -> String {
    format!("({},{})", tag.number, tag.client)
}

/// Whether a read got the tag that it asked for, by the mark of its reply.
pub fn mark(mark: u32) -> &'static str {
    match mark {
        EXACT => "the tag asked for",
        _ => "newer than asked",
    }
}

/// A line of a schedule, short and on one line whatever bytes it has.
pub fn line_text(line: &[u8]) -> String {
    const MOST: usize = 80;
    let shown = line[..line.len().min(MOST)].escape_ascii().to_string();
    if line.len() > MOST {
        format!("{shown}.. ({} bytes)", line.len())
    } else {
        shown
    }
}
