//! An operation that is open: its row, its own mail, and how many deliveries are left to it.

use crate::columns::height;
use crate::view;
use copy::client::Client;
use copy::directory::Directory;
use copy::layout::*;
use copy::mail::Message;
use copy::{Numbers, Tag, Words};

#[derive(Clone, Copy, PartialEq, Eq, Debug)]
pub struct Open {
    pub client: u32,
    pub row: Client,
    pub numbers: Numbers,
    /// Parties to whom a request of the present round waits.
    pub asked: u32,
    /// Parties that have not answered and whose reply of the present round waits.
    pub replied: u32,
    /// Parties of the sort that the present phase asks, that are up.
    pub up: u32,
}

/// What a phase must hear.
#[derive(Clone, Copy, PartialEq, Eq, Debug)]
pub enum Enough {
    Count(u32),
    WholeColumn,
    EachColumn,
}

/// What a message is to an open operation.
#[derive(Clone, Copy, PartialEq, Eq, Debug)]
pub enum Part {
    Reply,
    Request,
    Other,
}

/// Kinds of request and reply of each phase.
const ROUNDS: [(u32, u32); 7] = [
    (0, 0),
    (RREAD, RREAD_OK),
    (RWRITE, RWRITE_OK),
    (READ, READ_OK),
    (WREAD, WREAD_OK),
    (WRITE, WRITE_OK),
    (WWRITE, WWRITE_OK),
];

impl Open {
    /// Nothing for an idle client.
    pub fn of(m: &Words, client: u32) -> Option<Open> {
        let row = Client::read(m, client);
        if row.phase == IDLE {
            return None;
        }
        let mut open = Open { client, row, numbers: Numbers::read(m), asked: 0, replied: 0, up: 0 };
        let party = open.party();
        open.up = up(m, party, view::count_of(party, &open.numbers));
        for message in view::waiting(m).into_iter().filter_map(|slot| view::message(m, slot)) {
            match open.part(&message) {
                Part::Request => open.asked |= bit(message.to),
                Part::Reply => open.replied |= bit(message.from) & !row.answered,
                Part::Other => (),
            }
        }
        Some(open)
    }

    pub fn part(&self, message: &Message) -> Part {
        let (request, reply) = ROUNDS[self.row.phase as usize];
        let present = message.number == self.row.number;
        if present && message.kind == request && message.from == self.client {
            Part::Request
        } else if present && message.kind == reply && message.to == self.client {
            Part::Reply
        } else {
            Part::Other
        }
    }

    pub fn is_read(&self) -> bool {
        self.row.phase <= RRR
    }

    /// The last phase of this sort of operation.
    pub fn last(&self) -> u32 {
        if self.is_read() {
            RRR
        } else {
            WDW
        }
    }

    /// The sort of party that the present phase asks.
    pub fn party(&self) -> Party {
        match self.row.phase {
            RRR | WRW => Party::Replica,
            _ => Party::Directory,
        }
    }

    /// The cheapest sets of `able` parties whose answers end the present phase: in columns, one
    /// for each column that they can make whole.
    pub fn ways(&self, able: u32) -> Vec<u32> {
        let answered = self.row.answered;
        let from = |among: u32, count| self.cheapest(among & able & !answered, count);
        let columns = self.numbers.column_sets();
        match enough(self.row.phase, &self.numbers) {
            Enough::Count(wanted) => from(u32::MAX, wanted.saturating_sub(answered.count_ones())).into_iter().collect(),
            Enough::WholeColumn => {
                columns.filter_map(|column| from(column, (column & !answered).count_ones())).collect()
            }
            Enough::EachColumn => {
                let unmet = columns.filter(|column| column & answered == 0);
                unmet.map(|column| from(column, 1)).sum::<Option<u32>>().into_iter().collect()
            }
        }
    }

    /// So many of a set, those first whose reply waits.
    fn cheapest(&self, set: u32, count: u32) -> Option<u32> {
        let in_turn = members(set & self.replied).chain(members(set & !self.replied));
        let way: u32 = in_turn.take(count as usize).map(bit).sum();
        (way.count_ones() == count).then_some(way)
    }

    /// Deliveries of a way and of the phases behind it: an answer takes one if its reply waits,
    /// else two, request and reply.
    pub fn deliveries(&self, way: u32) -> u32 {
        let later: u32 = (self.row.phase + 1..=self.last()).map(|phase| 2 * answers(phase, &self.numbers)).sum();
        2 * way.count_ones() - (way & self.replied).count_ones() + later
    }

    /// Deliveries still to come, by the parties that are up where they are enough.
    pub fn left(&self) -> u32 {
        let least = |able| self.ways(able).into_iter().map(|way| self.deliveries(way)).min();
        least(self.up | self.replied).or(least(u32::MAX)).unwrap_or(0)
    }

    /// The price of the whole operation, from its start on.
    pub fn whole(&self) -> u32 {
        let first = if self.is_read() { RDR } else { WDR };
        (first..=self.last()).map(|phase| 2 * answers(phase, &self.numbers)).sum()
    }
}

pub fn enough(phase: u32, n: &Numbers) -> Enough {
    match phase {
        RDR | WDR if n.columns > 0 => Enough::WholeColumn,
        RDW | WDW if n.columns > 0 => Enough::EachColumn,
        RDR | WDR => Enough::Count(n.rq),
        RDW | WDW => Enough::Count(n.wq),
        WRW => Enough::Count(n.f + 1),
        _ => Enough::Count(1),
    }
}

/// The fewest answers at which a phase ends.
pub fn answers(phase: u32, n: &Numbers) -> u32 {
    match enough(phase, n) {
        Enough::Count(count) => count,
        Enough::WholeColumn => height(n),
        Enough::EachColumn => n.columns,
    }
}

/// The parties of one sort that are up.
pub fn up(m: &Words, party: Party, count: u32) -> u32 {
    (1..=count).filter(|&id| !view::is_down(m, party, id)).map(bit).sum()
}

pub fn members(set: u32) -> impl Iterator<Item = u32> {
    (1..=u32::BITS).filter(move |&id| set & bit(id) != 0)
}

pub fn empty_slots(m: &Words) -> u32 {
    SLOTS as u32 - copy::mail::waiting(m)
}

/// The twelve entries of a replica, free or not.
pub fn entries(m: &Words, replica: u32) -> impl Iterator<Item = &[u32]> {
    m[entries_at(m, replica)..][..ENTRIES * ENTRY_ROW].chunks_exact(ENTRY_ROW)
}

/// Replicas with a free entry.
pub fn with_room(m: &Words, nr: u32) -> u32 {
    let room = |&id: &u32| entries(m, id).any(|row| row[0] == FREE);
    (1..=nr).filter(room).map(bit).sum()
}

/// Replicas that have a tag.
pub fn with_tag(m: &Words, nr: u32, tag: Tag) -> u32 {
    (1..=nr).filter(|&id| has_tag(m, id, tag)).map(bit).sum()
}

pub fn has_tag(m: &Words, replica: u32, tag: Tag) -> bool {
    entries(m, replica).any(|row| row[0] != FREE && Tag::new(row[1], row[2]) == tag)
}

/// Directories whose answer, still to come, has the number at top. A reply that waits is as
/// it was sent, whatever its directory learned since.
pub fn at_top(m: &Words, open: &Open) -> u32 {
    let Numbers { nd, top, .. } = open.numbers;
    let mail = view::waiting(m).into_iter().filter_map(|slot| view::message(m, slot));
    let replies = mail.filter(|message| open.part(message) == Part::Reply && message.tag.number == top);
    let in_replies = replies.fold(0, |set, reply| set | bit(reply.from)) & open.replied;
    let silent = up(m, Party::Directory, nd) & !open.row.answered & !open.replied;
    let in_rows: u32 = members(silent).filter(|&id| Directory::read(m, id).tag.number == top).map(bit).sum();
    in_replies | in_rows
}
