//! The message slots.

use crate::layout::*;
use crate::tag::Tag;

#[derive(Clone, Copy, PartialEq, Eq, Debug)]
pub struct Message {
    pub kind: u32,
    pub from: u32,
    pub to: u32,
    pub tag: Tag,
    pub set: u32,
    pub number: u32,
    pub page: Page,
}

/// One step sends one message to a set of receivers; only `to` differs.
#[derive(Clone, Copy, PartialEq, Eq, Debug)]
pub struct Send {
    pub message: Message,
    pub receivers: u32,
}

impl Message {
    /// A message with no tag, set or page; the receiver is filled in when it is placed.
    pub fn new(kind: u32, from: u32, number: u32) -> Message {
        Message { kind, from, to: 0, tag: Tag::FIRST, set: 0, number, page: [0; PAGE] }
    }

    pub fn tagged(self, tag: Tag) -> Message {
        Message { tag, ..self }
    }

    pub fn with_set(self, set: u32) -> Message {
        Message { set, ..self }
    }

    pub fn with_page(self, page: Page) -> Message {
        Message { page, ..self }
    }

    pub fn to_all(self, receivers: u32) -> Send {
        Send { message: self, receivers }
    }

    pub fn to_one(self, receiver: u32) -> Send {
        self.to_all(bit(receiver))
    }
}

pub fn read(m: &Words, slot: u32) -> Message {
    let at = slot_at(m, slot);
    let row: &[u32; SLOT_ROW] = m[at..at + SLOT_ROW].try_into().expect("a slot's length");
    let [kind, from, to, tag_number, tag_client, set, number, ..] = *row;
    let page = row[8..].try_into().expect("a page's length");
    Message { kind, from, to, tag: Tag::new(tag_number, tag_client), set, number, page }
}

fn write(row: &mut [u32], message: &Message, to: u32) {
    let Message { kind, from, tag, set, number, page, .. } = message;
    row[..8].copy_from_slice(&[*kind, *from, to, tag.number, tag.client, *set, *number, 0]);
    row[8..].copy_from_slice(page);
}

pub fn clear(m: &mut Words, slot: u32) {
    let at = slot_at(m, slot);
    m[at..at + SLOT_ROW].fill(0);
}

fn kinds(m: &Words) -> impl Iterator<Item = u32> + '_ {
    m[slot_at(m, 1)..].chunks_exact(SLOT_ROW).map(|row| row[0])
}

pub fn waiting(m: &Words) -> u32 {
    kinds(m).filter(|&kind| kind != 0).count() as u32
}

/// Whether `send` finds room, when `freed` more slots than now are empty.
pub fn fits(m: &Words, send: &Send, freed: u32) -> bool {
    let wanted = send.receivers.count_ones().saturating_sub(freed) as usize;
    wanted == 0 || kinds(m).filter(|&kind| kind == 0).nth(wanted - 1).is_some()
}

/// Places in order of receiver, each into the lowest empty slot. `fits` was asked before.
pub fn place(m: &mut Words, send: &Send) {
    let mut left = send.receivers;
    let at = slot_at(m, 1);
    for row in m[at..].chunks_exact_mut(SLOT_ROW) {
        if left == 0 {
            return;
        }
        if row[0] == 0 {
            write(row, &send.message, left.trailing_zeros() + 1);
            left &= left - 1;
        }
    }
}
