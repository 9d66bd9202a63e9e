//! The client rule: a row and a reply give one of six outcomes.

use crate::layout::*;
use crate::mail::{Message, Send};
use crate::numbers::Numbers;
use crate::tag::Tag;

#[derive(Clone, Copy, PartialEq, Eq, Debug)]
pub struct Client {
    pub down: u32,
    pub phase: u32,
    pub number: u32,
    pub answered: u32,
    pub set: u32,
    pub tag: Tag,
    pub page: Page,
}

#[derive(Clone, Copy, PartialEq, Eq, Debug)]
#[allow(clippy::large_enum_variant)] // short-lived and on the stack: a box would cost more
pub enum Outcome {
    Waiting(Client),
    Next(Client, Send),
    ReadEnded,
    WriteEnded(Send),
    Spent,
    Stale,
}

impl Client {
    pub fn read(m: &Words, id: u32) -> Client {
        let at = client_at(id);
        let row: &[u32; CLIENT_ROW] = m[at..at + CLIENT_ROW].try_into().expect("a row's length");
        let [down, phase, number, answered, set, tag_number, tag_client, ..] = *row;
        let page = row[8..].try_into().expect("a page's length");
        Client { down, phase, number, answered, set, tag: Tag::new(tag_number, tag_client), page }
    }

    pub fn write(&self, m: &mut Words, id: u32) {
        let at = client_at(id);
        let row = &mut m[at..at + CLIENT_ROW];
        let Client { down, phase, number, answered, set, tag, page } = self;
        row[..8].copy_from_slice(&[*down, *phase, *number, *answered, *set, tag.number, tag.client, 0]);
        row[8..].copy_from_slice(page);
    }

    /// The same client after its operation: only down and message number stay.
    pub fn idle(&self) -> Client {
        let Client { down, number, .. } = *self;
        Client { down, phase: IDLE, number, answered: 0, set: 0, tag: Tag::FIRST, page: [0; PAGE] }
    }

    /// An idle client's first round: the new row and what it asks the directories.
    pub fn start(&self, id: u32, phase: u32, page: &Page, nd: u32) -> (Client, Send) {
        let row = Client { phase, number: self.number + 1, page: *page, ..self.idle() };
        let kind = if phase == RDR { RREAD } else { WREAD };
        (row, Message::new(kind, id, row.number).to_all(all(nd)))
    }

    pub fn take(&self, message: &Message, n: &Numbers) -> Outcome {
        let from = bit(message.from);
        let expected = reply_kind(self.phase) == message.kind;
        if !expected || message.number != self.number || self.answered & from != 0 {
            return Outcome::Stale;
        }
        let row = Client { answered: self.answered | from, ..*self }.learn(message);
        match self.phase {
            RRR => Outcome::ReadEnded,
            RDR | WDR if !n.enough_to_read(row.answered) => Outcome::Waiting(row),
            RDW | WDW if !n.enough_to_write(row.answered) => Outcome::Waiting(row),
            WRW if row.answered.count_ones() <= n.f => Outcome::Waiting(row),
            _ => row.advance(message.to, n),
        }
    }

    /// The greatest tag of the first round; a read keeps the set that goes with it.
    fn learn(self, message: &Message) -> Client {
        match self.phase {
            RDR if message.tag > self.tag => Client { tag: message.tag, set: message.set, ..self },
            RDR if message.tag == self.tag => Client { set: self.set | message.set, ..self },
            WDR => Client { tag: self.tag.max(message.tag), ..self },
            _ => self,
        }
    }

    /// Enough have answered: the next phase, or the end of a write.
    fn advance(self, id: u32, n: &Numbers) -> Outcome {
        match self.phase {
            RDR => self.next(RDW).sends(id, RWRITE, all(n.nd)),
            RDW => self.next(RRR).sends(id, READ, self.set),
            WDR if self.tag.number == n.top => Outcome::Spent,
            WDR => {
                let tag = Tag::new(self.tag.number + 1, id);
                Client { tag, ..self.next(WRW) }.sends(id, WRITE, all(n.nr))
            }
            WRW => Client { set: self.answered, ..self.next(WDW) }.sends(id, WWRITE, all(n.nd)),
            _ => {
                let secure = Message::new(SECURE, id, self.number).tagged(self.tag);
                Outcome::WriteEnded(secure.to_all(self.set))
            }
        }
    }

    fn next(self, phase: u32) -> Client {
        Client { phase, number: self.number + 1, answered: 0, ..self }
    }

    fn sends(self, id: u32, kind: u32, receivers: u32) -> Outcome {
        let message = Message::new(kind, id, self.number).tagged(self.tag);
        let message = match kind {
            RWRITE | WWRITE => message.with_set(self.set),
            WRITE => message.with_page(self.page),
            _ => message,
        };
        Outcome::Next(self, message.to_all(receivers))
    }
}

/// The only kind that a phase listens to; 0 is no message's kind.
fn reply_kind(phase: u32) -> u32 {
    match phase {
        RDR => RREAD_OK,
        RDW => RWRITE_OK,
        RRR => READ_OK,
        WDR => WREAD_OK,
        WRW => WRITE_OK,
        WDW => WWRITE_OK,
        _ => 0,
    }
}
