//! The lines of a schedule.

use crate::layout::Layout;
use crate::numbers::Numbers;

/// The longest line, LF not counted.
pub const LONGEST: usize = 80;

#[derive(Clone, Copy, PartialEq, Eq, Debug)]
pub enum Call {
    SetUp { layout: Layout, numbers: Numbers, word: u32 },
    Read { client: u32 },
    Write { client: u32, word: u32 },
    Deliver { slot: u32 },
    Gossip { from: u32, to: u32 },
    Tidy { replica: u32 },
    Crash { kind: u32, id: u32 },
}

/// The call of a line without its LF; nothing for a malformed line.
pub fn parse(line: &[u8]) -> Option<Call> {
    if line.len() > LONGEST {
        return None;
    }
    let (&letter, rest) = line.split_first()?;
    match letter {
        b'D' => fields(rest).map(|[slot]| Call::Deliver { slot }),
        b'R' => fields(rest).map(|[client]| Call::Read { client }),
        b'W' => fields(rest).map(|[client, word]| Call::Write { client, word }),
        b'G' => fields(rest).map(|[from, to]| Call::Gossip { from, to }),
        b'T' => fields(rest).map(|[replica]| Call::Tidy { replica }),
        b'X' => fields(rest).map(|[kind, id]| Call::Crash { kind, id }),
        b'S' => fields(rest).map(|[nc, nd, nr, f, rq, wq, top, word]| Call::SetUp {
            layout: Layout::Base,
            numbers: Numbers { nc, nd, nr, f, rq, wq, top, columns: 0 },
            word,
        }),
        b'C' => fields(rest).map(|[nc, nd, nr, f, columns, top, word]| Call::SetUp {
            layout: Layout::Wide,
            numbers: Numbers { nc, nd, nr, f, rq: 0, wq: 0, top, columns },
            word,
        }),
        _ => None,
    }
}

/// Exactly N fields, each behind one space, and nothing after them.
fn fields<const N: usize>(mut rest: &[u8]) -> Option<[u32; N]> {
    let mut values = [0; N];
    for value in &mut values {
        (*value, rest) = field(rest.strip_prefix(b" ")?)?;
    }
    rest.is_empty().then_some(values)
}

/// A decimal without leading zeros, and what stands behind it.
fn field(text: &[u8]) -> Option<(u32, &[u8])> {
    let length = text.iter().take_while(|byte| byte.is_ascii_digit()).count();
    let (digits, rest) = text.split_at(length);
    let leading_zero = length > 1 && digits[0] == b'0';
    if length == 0 || length > 10 || leading_zero {
        return None;
    }
    // Ten digits fit u64, so no overflow is possible here.
    let value = digits.iter().fold(0u64, |sum, digit| sum * 10 + u64::from(digit - b'0'));
    Some((u32::try_from(value).ok()?, rest))
}
