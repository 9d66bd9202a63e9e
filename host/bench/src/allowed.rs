//! Which codes a line can get: by its text and the set-up in force, without running it.

use crate::meaning::bad_argument;
use crate::names;
use copy::answer::*;
use copy::line::{parse, Call};
use copy::Numbers;

/// The call of a line, given with its LF, that got this code; a malformed line makes none.
/// `machine` has the numbers of the last accepted set-up.
pub fn called(raw: &[u8], machine: Option<&Numbers>, code: u32) -> Result<Option<Call>, String> {
    let call = raw.strip_suffix(b"\n").and_then(parse);
    let text = || names::line_text(raw.strip_suffix(b"\n").unwrap_or(raw));
    match decided(raw, call, machine) {
        Some((owed, why)) if owed != code => {
            Err(format!("\"{}\" {why}, which is {}, not {}", text(), names::code(owed), names::code(code)))
        }
        None if call.is_some_and(|call| !possible(call).contains(&code)) => {
            Err(format!("\"{}\" cannot get {}", text(), names::code(code)))
        }
        _ => Ok(call),
    }
}

/// The code that is known from the numbers alone, and why.
fn decided(raw: &[u8], call: Option<Call>, machine: Option<&Numbers>) -> Option<(u32, &'static str)> {
    match (call, machine) {
        (None, _) if !raw.ends_with(b"\n") => Some((BAD_ARGUMENT, "has no LF at its end")),
        (None, _) => Some((BAD_ARGUMENT, "is malformed")),
        (Some(Call::SetUp { layout, numbers, .. }), _) if numbers.in_range(layout) => {
            Some((DONE, "has its numbers in range"))
        }
        (Some(Call::SetUp { .. }), _) => Some((BAD_ARGUMENT, "has numbers out of range")),
        (Some(_), None) => Some((BAD_MACHINE, "stands before the first accepted set-up")),
        (Some(call), Some(n)) if bad_argument(n, call).is_some() => Some((BAD_ARGUMENT, "has a number out of range")),
        _ => None,
    }
}

/// The codes of a call whose numbers are in range, after a set-up: no machine that is reached
/// is bad, and SIZE never comes, since the program's buffer and page are right.
fn possible(call: Call) -> &'static [u32] {
    match call {
        Call::SetUp { .. } => &[DONE],
        Call::Read { .. } | Call::Write { .. } => &[DONE, DOWN, BUSY, WORN, NO_SLOT],
        Call::Deliver { .. } => &[DONE, READ_ENDED, WRITE_ENDED, WRITE_SPENT, DROPPED, STALE, EMPTY, FULL, NO_SLOT],
        Call::Gossip { .. } => &[DONE, DOWN, NO_SLOT],
        Call::Tidy { .. } | Call::Crash { .. } => &[DONE, DOWN],
    }
}
