//! The directory rule: a row and a message give the next row and perhaps a reply.

use crate::layout::*;
use crate::mail::{Message, Send};
use crate::tag::Tag;

#[derive(Clone, Copy, PartialEq, Eq, Debug)]
pub struct Directory {
    pub tag: Tag,
    pub set: u32,
}

impl Directory {
    pub fn read(m: &Words, id: u32) -> Directory {
        let at = directory_at(id);
        Directory { tag: Tag::new(m[at + 1], m[at + 2]), set: m[at + 3] }
    }

    pub fn write(&self, m: &mut Words, id: u32) {
        let at = directory_at(id);
        m[at + 1..at + 4].copy_from_slice(&[self.tag.number, self.tag.client, self.set]);
    }

    pub fn take(self, message: &Message, f: u32) -> (Directory, Option<Send>) {
        let reply = Message::new(message.kind + 4, message.to, message.number);
        match message.kind {
            RREAD => (self, Some(reply.tagged(self.tag).with_set(self.set).to_one(message.from))),
            WREAD => (self, Some(reply.tagged(self.tag).to_one(message.from))),
            NOTICE => (self.noticed(message), None),
            _ => (self.told(message.tag, message.set, f), Some(reply.to_one(message.from))),
        }
    }

    /// rwrite and wwrite: a greater tag counts only with enough replicas behind it.
    fn told(self, tag: Tag, set: u32, f: u32) -> Directory {
        if tag == self.tag {
            Directory { tag, set: self.set | set }
        } else if tag > self.tag && set.count_ones() > f {
            Directory { tag, set }
        } else {
            self
        }
    }

    fn noticed(self, message: &Message) -> Directory {
        if message.tag == self.tag {
            Directory { set: self.set | bit(message.from), ..self }
        } else {
            self
        }
    }
}
