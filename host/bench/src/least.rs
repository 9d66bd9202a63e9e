//! The least number of deliveries that can end an operation, by the rules of a step alone: the
//! search is guided by it, so it must not rest on what the search is to show.

use crate::open::{answers, at_top, empty_slots, up, with_room, with_tag, Open};
use copy::layout::*;
use copy::{Numbers, Words};

/// No fewer deliveries can end it; nothing if none can.
///
/// An answer counts when its reply is delivered. A reply that does not wait is made by no
/// delivery but that of its request. What later phases ask is sent under a later number, so
/// nothing of it waits now. That makes `deliveries`, whatever else is delivered in between.
/// A delivery empties one slot at most, and an answered request none: its reply takes the
/// place. So where the replies do not empty enough for what the phases send, each slot that
/// is short takes a delivery more, of some other message. Each way is asked by itself: one with
/// more answers empties more slots.
pub fn least(m: &Words, open: &Open) -> Option<u32> {
    ways(m, open).into_iter().map(|way| open.deliveries(way) + slots_short(m, open, way)).min()
}

/// Whether the slots that are short call for deliveries of other messages.
pub fn wants_slots(m: &Words, open: &Open) -> bool {
    ways(m, open).into_iter().any(|way| slots_short(m, open, way) > 0)
}

/// The ways that deliveries can go. None brings a party up, frees an entry, lowers a number or
/// sends a request again; and a tag still to be chosen is at no replica yet.
fn ways(m: &Words, open: &Open) -> Vec<u32> {
    let Numbers { nd, nr, .. } = open.numbers;
    let directories = up(m, Party::Directory, nd);
    let replicas = up(m, Party::Replica, nr);
    if open.row.down == 0 && goes_on(m, open, directories, replicas) {
        open.ways(able(m, open, directories, replicas))
    } else {
        Vec::new()
    }
}

/// Slots that the replies to come do not empty, of those that the phases fill.
fn slots_short(m: &Words, open: &Open, way: u32) -> u32 {
    let mut room = i64::from(empty_slots(m));
    let mut short = 0;
    for phase in open.row.phase..=open.last() {
        let present = phase == open.row.phase;
        let heard = if present { way.count_ones() } else { answers(phase, &open.numbers) };
        room += i64::from(heard) - i64::from(sent_after(open, phase));
        short = short.max(-room);
    }
    short as u32
}

/// The least that the end of a phase sends. A directory's set never has fewer than f + 1: it
/// begins with all replicas and takes no smaller one.
fn sent_after(open: &Open, phase: u32) -> u32 {
    let Numbers { nd, nr, f, .. } = open.numbers;
    let present = phase == open.row.phase;
    match phase {
        RDR | WRW => nd,
        WDR => nr,
        RDW | WDW if present => open.row.set.count_ones(),
        RDW | WDW => f + 1,
        _ => 0,
    }
}

/// False where nobody is left for a phase behind the present one.
fn goes_on(m: &Words, open: &Open, directories: u32, replicas: u32) -> bool {
    let Numbers { nr, f, .. } = open.numbers;
    match open.row.phase {
        RDR => open.numbers.enough_to_write(directories) && replicas != 0,
        RDW => replicas & open.row.set != 0,
        WDR => open.numbers.enough_to_write(directories) && (replicas & with_room(m, nr)).count_ones() > f,
        WRW => open.numbers.enough_to_write(directories),
        _ => true,
    }
}

/// Parties that may still answer in the present phase, and not end a write as SPENT.
fn able(m: &Words, open: &Open, directories: u32, replicas: u32) -> u32 {
    let Numbers { nr, top, .. } = open.numbers;
    match open.row.phase {
        RRR => open.replied | open.asked & replicas,
        WRW => open.replied | open.asked & replicas & (with_room(m, nr) | with_tag(m, nr, open.row.tag)),
        WDR if open.row.tag.number == top => 0,
        WDR => (open.replied | open.asked & directories) & !at_top(m, open),
        _ => open.replied | open.asked & directories,
    }
}
