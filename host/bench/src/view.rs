//! What a generator or a picture wants to know of a machine.

use copy::layout::*;
use copy::line::Call;
use copy::mail::{self, Message};
use copy::numbers::within;
use copy::{Numbers, Words};

pub fn waiting(m: &Words) -> Vec<u32> {
    (1..=SLOTS as u32).filter(|&slot| m[slot_at(m, slot)] != 0).collect()
}

pub fn message(m: &Words, slot: u32) -> Option<Message> {
    (m[slot_at(m, slot)] != 0).then(|| mail::read(m, slot))
}

/// The message that a delivery is about.
pub fn arriving(m: &Words, call: Call) -> Option<Message> {
    match call {
        Call::Deliver { slot } if within(slot, SLOTS as u32) => message(m, slot),
        _ => None,
    }
}

pub fn is_down(m: &Words, party: Party, id: u32) -> bool {
    m[down_at(m, party, id)] != 0
}

pub fn down_count(m: &Words, party: Party, count: u32) -> u32 {
    (1..=count).filter(|&id| is_down(m, party, id)).count() as u32
}

/// Clients that a start would not refuse by themselves.
pub fn startable(m: &Words, n: &Numbers) -> Vec<u32> {
    let ready = |&id: &u32| {
        let row = &m[client_at(id)..];
        row[0] == 0 && row[1] == IDLE && u64::from(row[2]) + 3 <= u64::from(n.top)
    };
    (1..=n.nc).filter(ready).collect()
}

/// The client at one end of a message, if any.
pub fn client_of(message: &Message) -> Option<u32> {
    match ends(message.kind) {
        (Party::Client, _) => Some(message.from),
        (_, Party::Client) => Some(message.to),
        _ => None,
    }
}

/// Whether a message touches one of these directories or replicas.
pub fn touches(message: &Message, directories: u32, replicas: u32) -> bool {
    let (from, to) = ends(message.kind);
    let hit = |party, id| match party {
        Party::Client => false,
        Party::Directory => directories & bit(id) != 0,
        Party::Replica => replicas & bit(id) != 0,
    };
    hit(from, message.from) || hit(to, message.to)
}

/// Which party a crash names: 1 client, 2 directory, 3 replica.
pub fn party_of(kind: u32) -> Option<Party> {
    match kind {
        1 => Some(Party::Client),
        2 => Some(Party::Directory),
        3 => Some(Party::Replica),
        _ => None,
    }
}

/// How many parties of a sort a machine has.
pub fn count_of(party: Party, n: &Numbers) -> u32 {
    match party {
        Party::Client => n.nc,
        Party::Directory => n.nd,
        Party::Replica => n.nr,
    }
}
