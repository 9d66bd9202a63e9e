//! What a call hands back.

use crate::tag::Tag;

pub const DONE: u32 = 0;
pub const READ_ENDED: u32 = 1;
pub const WRITE_ENDED: u32 = 2;
pub const WRITE_SPENT: u32 = 3;
pub const DROPPED: u32 = 4;
pub const STALE: u32 = 5;
pub const SIZE: u32 = 16;
pub const BAD_MACHINE: u32 = 17;
pub const BAD_ARGUMENT: u32 = 18;
pub const DOWN: u32 = 19;
pub const BUSY: u32 = 20;
pub const WORN: u32 = 21;
pub const EMPTY: u32 = 22;
pub const FULL: u32 = 23;
pub const NO_SLOT: u32 = 24;

// What the mark of a read says.
pub const NEWER: u32 = 0;
pub const EXACT: u32 = 1;

#[derive(Clone, Copy, PartialEq, Eq, Debug)]
pub struct Answer {
    pub code: u32,
    pub client: u32,
    pub tag: Tag,
    /// Of a read: 1 where it got the very tag that it had asked for, 0 where it got a newer one.
    pub mark: u32,
}

impl Answer {
    /// Codes that carry nothing else.
    pub fn bare(code: u32) -> Answer {
        Answer { code, client: 0, tag: Tag::FIRST, mark: 0 }
    }

    pub fn accepted(&self) -> bool {
        self.code < SIZE
    }
}

#[derive(Clone, Copy, PartialEq, Eq, Debug)]
pub struct Report {
    pub code: u32,
    pub waiting: u32,
    pub down: u32,
}
