//! Where each table stands in the words, and the names of kinds and phases.

pub const WORDS: usize = 4992;
pub const WIDE_WORDS: usize = 5036;
pub const PAGE: usize = 16;
pub const CLIENTS: usize = 8;
pub const DIRECTORIES: usize = 5;
pub const WIDE_DIRECTORIES: usize = 16;
pub const REPLICAS: usize = 7;
pub const ENTRIES: usize = 12;
pub const SLOTS: usize = 128;

pub const NUMBERS: usize = 8;
pub const CLIENT_BASE: usize = 16;
pub const CLIENT_ROW: usize = 24;
pub const DIRECTORY_BASE: usize = 208;
pub const DIRECTORY_ROW: usize = 4;
/// From here on places are base's: all behind the directories stands `later` words on.
pub const REPLICA_DOWN: usize = 228;
pub const ENTRY_BASE: usize = 240;
pub const ENTRY_ROW: usize = 20;
pub const SLOT_BASE: usize = 1920;
pub const SLOT_ROW: usize = 24;

/// A machine's words, cut to the length of its layout.
pub type Words = [u32];
pub type Page = [u32; PAGE];

/// The two machines: 5 directories with counts, or 16 in columns.
#[derive(Clone, Copy, PartialEq, Eq, Debug)]
pub enum Layout {
    Base,
    Wide,
}

impl Layout {
    pub const ALL: [Layout; 2] = [Layout::Base, Layout::Wide];

    pub const fn words(self) -> usize {
        match self {
            Layout::Base => WORDS,
            Layout::Wide => WIDE_WORDS,
        }
    }

    pub const fn directories(self) -> usize {
        match self {
            Layout::Base => DIRECTORIES,
            Layout::Wide => WIDE_DIRECTORIES,
        }
    }

    /// The layout of words cut to its length.
    pub const fn of(m: &Words) -> Layout {
        if m.len() == WORDS {
            Layout::Base
        } else {
            Layout::Wide
        }
    }
}

/// How far the tables behind the directories have moved.
pub const fn later(m: &Words) -> usize {
    m.len() - WORDS
}

pub const RREAD: u32 = 1;
pub const RWRITE: u32 = 2;
pub const WREAD: u32 = 3;
pub const WWRITE: u32 = 4;
pub const RREAD_OK: u32 = 5;
pub const RWRITE_OK: u32 = 6;
pub const WREAD_OK: u32 = 7;
pub const WWRITE_OK: u32 = 8;
pub const READ: u32 = 9;
pub const WRITE: u32 = 10;
pub const SECURE: u32 = 11;
pub const READ_OK: u32 = 12;
pub const WRITE_OK: u32 = 13;
pub const NOTICE: u32 = 14;
pub const GOSSIP: u32 = 15;

pub const IDLE: u32 = 0;
pub const RDR: u32 = 1;
pub const RDW: u32 = 2;
pub const RRR: u32 = 3;
pub const WDR: u32 = 4;
pub const WRW: u32 = 5;
pub const WDW: u32 = 6;

pub const FREE: u32 = 0;
pub const HELD: u32 = 1;
pub const SECURED: u32 = 2;

#[derive(Clone, Copy, PartialEq, Eq, Debug)]
pub enum Party {
    Client,
    Directory,
    Replica,
}

/// Sender and receiver of a message kind from 1 to 15.
pub const fn ends(kind: u32) -> (Party, Party) {
    match kind {
        RREAD..=WWRITE => (Party::Client, Party::Directory),
        RREAD_OK..=WWRITE_OK => (Party::Directory, Party::Client),
        READ..=SECURE => (Party::Client, Party::Replica),
        READ_OK | WRITE_OK => (Party::Replica, Party::Client),
        NOTICE => (Party::Replica, Party::Directory),
        _ => (Party::Replica, Party::Replica),
    }
}

/// First word of the row of client `id`, counted from 1.
pub fn client_at(id: u32) -> usize {
    CLIENT_BASE + (id as usize - 1) * CLIENT_ROW
}

pub fn directory_at(id: u32) -> usize {
    DIRECTORY_BASE + (id as usize - 1) * DIRECTORY_ROW
}

/// First word of the first entry of replica `id`.
pub fn entries_at(m: &Words, id: u32) -> usize {
    ENTRY_BASE + later(m) + (id as usize - 1) * ENTRIES * ENTRY_ROW
}

pub fn slot_at(m: &Words, slot: u32) -> usize {
    SLOT_BASE + later(m) + (slot as usize - 1) * SLOT_ROW
}

/// The word that tells whether a party is down.
pub fn down_at(m: &Words, party: Party, id: u32) -> usize {
    match party {
        Party::Client => client_at(id),
        Party::Directory => directory_at(id),
        Party::Replica => REPLICA_DOWN + later(m) + id as usize - 1,
    }
}

pub fn bit(id: u32) -> u32 {
    1 << (id - 1)
}

/// The set of the parties 1 to `count`.
pub fn all(count: u32) -> u32 {
    (1 << count) - 1
}
