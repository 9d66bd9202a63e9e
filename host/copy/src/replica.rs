//! The replica rule, on the twelve entries of one replica.

use crate::answer::{EXACT, NEWER};
use crate::layout::*;
use crate::mail::{Message, Send};
use crate::tag::Tag;

/// The twelve entries, as a part of the words.
pub struct Entries<'a>(&'a [u32]);

/// What happens to the entries; `None` leaves them all.
#[derive(Clone, Copy, PartialEq, Eq, Debug)]
pub enum Change {
    None,
    Put { entry: usize, state: u32 },
    Secure { entry: usize },
    Full,
}

pub fn entries(m: &Words, id: u32) -> Entries<'_> {
    let at = entries_at(m, id);
    Entries(&m[at..at + ENTRIES * ENTRY_ROW])
}

impl Entries<'_> {
    fn rows(&self) -> impl Iterator<Item = &[u32]> {
        self.0.chunks_exact(ENTRY_ROW)
    }

    fn find(&self, tag: Tag) -> Option<usize> {
        self.rows().position(|row| row[0] != FREE && tag_of(row) == tag)
    }

    fn free(&self) -> Option<usize> {
        self.rows().position(|row| row[0] == FREE)
    }

    /// The highest secured entry; a good machine has one.
    pub fn highest(&self) -> (Tag, Page) {
        let secured = self.rows().filter(|row| row[0] == SECURED);
        let row = secured.max_by_key(|row| tag_of(row)).expect("a good replica has a secured entry");
        (tag_of(row), page_of(row))
    }

    /// The tag asked for, or the highest secured one instead; and which of the two, as the reply's mark.
    fn answer_for(&self, tag: Tag) -> ((Tag, Page), u32) {
        match self.find(tag) {
            Some(entry) => ((tag, page_of(&self.0[entry * ENTRY_ROW..][..ENTRY_ROW])), EXACT),
            None => (self.highest(), NEWER),
        }
    }

    fn put(&self, tag: Tag, state: u32) -> Change {
        match (self.find(tag), self.free()) {
            (Some(entry), _) if state == SECURED => Change::Secure { entry },
            (Some(_), _) => Change::None,
            (None, Some(entry)) => Change::Put { entry, state },
            (None, None) => Change::Full,
        }
    }

    /// What a message does, and what is sent for it.
    pub fn take(&self, message: &Message, nd: u32) -> (Change, Option<Send>) {
        let me = message.to;
        match message.kind {
            READ => {
                let ((tag, page), mark) = self.answer_for(message.tag);
                let reply = Message::new(READ_OK, me, message.number).tagged(tag).with_set(mark).with_page(page);
                (Change::None, Some(reply.to_one(message.from)))
            }
            WRITE => {
                let reply = Message::new(WRITE_OK, me, message.number);
                (self.put(message.tag, HELD), Some(reply.to_one(message.from)))
            }
            SECURE => {
                let found = self.find(message.tag);
                (found.map_or(Change::None, |entry| Change::Secure { entry }), None)
            }
            _ => {
                let notice = Message::new(NOTICE, me, 0).tagged(message.tag);
                (self.put(message.tag, SECURED), Some(notice.to_all(all(nd))))
            }
        }
    }
}

fn tag_of(row: &[u32]) -> Tag {
    Tag::new(row[1], row[2])
}

fn page_of(row: &[u32]) -> Page {
    row[4..ENTRY_ROW].try_into().expect("a page's length")
}

fn entry_at(m: &Words, id: u32, entry: usize) -> usize {
    entries_at(m, id) + entry * ENTRY_ROW
}

/// Carries out a change that is not `Full`.
pub fn apply(m: &mut Words, id: u32, change: Change, message: &Message) {
    match change {
        Change::Put { entry, state } => put(m, id, entry, state, message.tag, &message.page),
        Change::Secure { entry } => m[entry_at(m, id, entry)] = SECURED,
        Change::None | Change::Full => (),
    }
}

pub fn put(m: &mut Words, id: u32, entry: usize, state: u32, tag: Tag, page: &Page) {
    let at = entry_at(m, id, entry);
    let row = &mut m[at..at + ENTRY_ROW];
    row[..4].copy_from_slice(&[state, tag.number, tag.client, 0]);
    row[4..].copy_from_slice(page);
}

/// Frees every entry below the highest secured tag.
pub fn tidy(m: &mut Words, id: u32) {
    let (highest, _) = entries(m, id).highest();
    let at = entries_at(m, id);
    for row in m[at..at + ENTRIES * ENTRY_ROW].chunks_exact_mut(ENTRY_ROW) {
        if tag_of(row) < highest {
            row.fill(0);
        }
    }
}
