//! The premises under which an operation ends by the promised number of deliveries, each asked
//! of the phase that it is in: what a phase has behind it is asked no more.

use crate::columns::columns;
use crate::names::{parties, set as braces};
use crate::open::{at_top, empty_slots, up, with_room, with_tag, Open};
use crate::view;
use copy::layout::*;
use copy::{Numbers, Words};
use std::fmt;

/// A premise that fails, with its numbers. Parties stand as sets.
#[derive(Clone, Copy, PartialEq, Eq, Debug)]
pub enum Premise {
    Client { client: u32 },
    Directories { up: u32, gone: u32, of: u32, reading: Option<u32>, writing: u32 },
    NoWholeColumn { down: u32, replied: u32 },
    Column { column: u32, down: u32 },
    Replicas { down: u32, of: u32, f: u32 },
    Set { set: u32 },
    Room { full: u32, room: u32, wanted: u32 },
    Top { directories: u32 },
    TopRead,
    Slots { empty: u32, wanted: u32 },
}

pub fn failing(m: &Words, open: &Open) -> Vec<Premise> {
    let others = [replicas(m, open), set(m, open), room(m, open), top(m, open), top_read(open), slots(m, open)];
    client(open).into_iter().chain(directories(m, open)).chain(others.into_iter().flatten()).collect()
}

fn client(open: &Open) -> Option<Premise> {
    (open.row.down != 0).then_some(Premise::Client { client: open.client })
}

fn directories(m: &Words, open: &Open) -> Vec<Premise> {
    match asked_of_directories(m, open) {
        Some(asked) if open.numbers.columns > 0 => in_columns(&asked, &open.numbers),
        Some(asked) => by_counts(&asked, &open.numbers).into_iter().collect(),
        None => Vec::new(),
    }
}

/// Directories that are up, and those that must be enough for reading and for writing.
struct Asked {
    up: u32,
    reading: Option<u32>,
    writing: u32,
}

/// Who answered, or whose reply waits, counts in the present round though it be down now.
fn asked_of_directories(m: &Words, open: &Open) -> Option<Asked> {
    let up = up(m, Party::Directory, open.numbers.nd);
    let now = open.row.answered | open.replied | up;
    match open.row.phase {
        RDR | WDR => Some(Asked { up, reading: Some(now), writing: up }),
        RDW | WDW => Some(Asked { up, reading: None, writing: now }),
        WRW => Some(Asked { up, reading: None, writing: up }),
        _ => None,
    }
}

fn by_counts(asked: &Asked, n: &Numbers) -> Option<Premise> {
    let Asked { up, reading, writing } = *asked;
    let enough = reading.is_none_or(|set| n.enough_to_read(set)) && n.enough_to_write(writing);
    let gone = (reading.unwrap_or(writing) & !up).count_ones();
    let reading = reading.map(|_| n.rq);
    (!enough).then_some(Premise::Directories { up: up.count_ones(), gone, of: n.nd, reading, writing: n.wq })
}

/// One whole column, and one in each column: every column that is broken is named.
fn in_columns(asked: &Asked, n: &Numbers) -> Vec<Premise> {
    let Asked { up, reading, writing } = *asked;
    let down = all(n.nd) & !up;
    let unread = reading.filter(|&set| !n.enough_to_read(set));
    let no_whole = unread.map(|set| Premise::NoWholeColumn { down, replied: set & down });
    let unmet = columns(n).filter(|(_, directories)| directories & writing == 0);
    no_whole.into_iter().chain(unmet.map(|(column, down)| Premise::Column { column, down })).collect()
}

/// Nobody waits for a replica in the last phase of a write.
fn replicas(m: &Words, open: &Open) -> Option<Premise> {
    let Numbers { nr, f, .. } = open.numbers;
    let down = view::down_count(m, Party::Replica, nr);
    (open.row.phase != WDW && down > f).then_some(Premise::Replicas { down, of: nr, f })
}

/// No premise of its own: with at most f down, a set of f + 1 has one that is up.
fn set(m: &Words, open: &Open) -> Option<Premise> {
    replicas(m, open)?;
    let set = open.row.set;
    let reachable = match open.row.phase {
        RDW => up(m, Party::Replica, open.numbers.nr),
        RRR => up(m, Party::Replica, open.numbers.nr) | open.replied,
        _ => return None,
    };
    (set & reachable == 0).then_some(Premise::Set { set })
}

/// Full replicas that are up; where too few have room for want of replicas, `replicas` says so.
fn room(m: &Words, open: &Open) -> Option<Premise> {
    let Numbers { nr, f, .. } = open.numbers;
    let up = up(m, Party::Replica, nr);
    let able = match open.row.phase {
        WDR => with_room(m, nr) & up,
        WRW => (with_room(m, nr) | with_tag(m, nr, open.row.tag)) & up | open.row.answered | open.replied,
        _ => return None,
    };
    let (full, room, wanted) = (up & !able, able.count_ones(), f + 1);
    (room < wanted && full != 0).then_some(Premise::Room { full, room, wanted })
}

fn top(m: &Words, open: &Open) -> Option<Premise> {
    let directories = if open.row.phase == WDR { at_top(m, open) } else { 0 };
    (directories != 0).then_some(Premise::Top { directories })
}

fn top_read(open: &Open) -> Option<Premise> {
    (open.row.phase == WDR && open.row.tag.number == open.numbers.top).then_some(Premise::TopRead)
}

fn slots(m: &Words, open: &Open) -> Option<Premise> {
    let (empty, wanted) = (empty_slots(m), slots_wanted(open.row.phase, Layout::of(m).directories() as u32));
    (empty < wanted).then_some(Premise::Slots { empty, wanted })
}

/// Empty slots asked in a phase: what is left of the 21 at the start, or 43 with 16 directory
/// rows, when the phases before it have sent to all directory rows and seven replicas. The slot
/// of a reply is used again.
fn slots_wanted(phase: u32, rows: u32) -> u32 {
    match phase {
        RDR | WDR => rows + 11,
        RDW => 12,
        WRW => rows + 5,
        _ => 6,
    }
}

impl fmt::Display for Premise {
    fn fmt(&self, f: &mut fmt::Formatter<'_>) -> fmt::Result {
        match *self {
            Premise::Client { client } => write!(f, "client {client} is down"),
            Premise::Directories { up, gone, of, reading, writing } => {
                write!(f, "{up} of {of} directories {} up", is(up))?;
                if gone > 0 {
                    write!(f, " and {gone} replied before going down")?;
                }
                match reading {
                    Some(reading) => write!(f, "; reading takes {reading} and writing {writing}"),
                    None => write!(f, "; writing takes {writing}"),
                }
            }
            Premise::NoWholeColumn { down, replied } => {
                write!(f, "no column has all its directories up: {}", are_down(down))?;
                match replied {
                    0 => Ok(()),
                    _ => write!(f, ", and {} replied before", parties(Party::Directory, replied)),
                }
            }
            Premise::Column { column, down } => {
                write!(f, "column {column} has no directory up: {}", are_down(down))
            }
            Premise::Replicas { down, of, f: bearable } => {
                write!(f, "{down} of {of} replicas {} down and f is {bearable}", is(down))
            }
            Premise::Set { set } => write!(f, "no replica of its set {} is up", braces(set)),
            Premise::Room { full, room, wanted } => {
                let has = if room == 1 { "has" } else { "have" };
                write!(
                    f,
                    "no free entry at {}: {room} of the {wanted} that it needs {has} room",
                    parties(Party::Replica, full)
                )
            }
            Premise::Top { directories } => {
                let has = if directories.count_ones() == 1 { "has its" } else { "have their" };
                write!(f, "{} {has} number at top: the write may end SPENT", parties(Party::Directory, directories))
            }
            Premise::TopRead => write!(f, "it has read a number at top: the write can only end SPENT"),
            Premise::Slots { empty, wanted } => {
                let slots = if empty == 1 { "slot" } else { "slots" };
                write!(f, "{empty} empty {slots}; {wanted} are wanted in this phase")
            }
        }
    }
}

fn are_down(directories: u32) -> String {
    format!("{} {} down", parties(Party::Directory, directories), is(directories.count_ones()))
}

fn is(count: u32) -> &'static str {
    if count == 1 {
        "is"
    } else {
        "are"
    }
}
