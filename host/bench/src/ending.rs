//! A shortest list of deliveries that ends an operation, found by trying.
//!
//! Depth first under a limit that grows from the least that can do (iterative deepening), so
//! the first list found is a shortest one. Where the tries are used up, as many again go
//! without a limit, for any list at all.

use crate::least::{least, wants_slots};
use crate::open::{Open, Part};
use crate::view;
use copy::answer::{Answer, READ_ENDED, WRITE_ENDED};
use copy::layout::*;
use copy::line::Call;
use copy::{rehearsal, Words};
use std::collections::HashMap;
use std::hash::{DefaultHasher, Hash, Hasher};

#[derive(Clone, PartialEq, Eq, Debug)]
pub enum Ending {
    /// Slots in order; run again, they ended the operation.
    Found(Vec<u32>),
    /// They ended it, but the tries were used up before it was known what is shortest.
    Long(Vec<u32>, usize),
    /// They did not when they were run again.
    Refuted(Vec<u32>),
    /// Everything was tried, or can be seen to be of no use.
    None,
    NotWithin(usize),
}

/// Enough for every operation that no premise stops, many times over; a second or two.
pub const TRIES: usize = 100_000;

/// More deliveries than any machine has to make.
const NO_LIMIT: u32 = 1 << 20;

pub fn shortest(m: &Words, client: u32, tries: usize) -> Ending {
    let mut search = Search::new(client, tries);
    let mut limit = Open::of(m, client).and_then(|open| least(m, &open));
    while let Some(most) = limit {
        search.begin(most);
        if search.go(m) {
            return confirmed(m, client, Ending::Found(search.list));
        }
        if search.tries == tries {
            return any(m, client, tries);
        }
        limit = search.next;
    }
    Ending::None
}

fn any(m: &Words, client: u32, tries: usize) -> Ending {
    let mut search = Search::new(client, tries);
    search.begin(NO_LIMIT);
    if search.go(m) {
        confirmed(m, client, Ending::Long(search.list, tries))
    } else {
        Ending::NotWithin(tries)
    }
}

fn confirmed(m: &Words, client: u32, ending: Ending) -> Ending {
    match ending {
        Ending::Found(list) | Ending::Long(list, _) if !ends_by(m, client, &list) => Ending::Refuted(list),
        _ => ending,
    }
}

/// Whether these deliveries are all accepted and just the last of them ends the operation.
pub fn ends_by(m: &Words, client: u32, list: &[u32]) -> bool {
    let mut words = copied(m);
    let answers: Vec<Answer> =
        list.iter().map(|&slot| rehearsal::run(&mut words, Call::Deliver { slot }).answer).collect();
    let first = answers.iter().position(|answer| ends(answer, client));
    answers.iter().all(Answer::accepted) && first.is_some_and(|at| at + 1 == list.len())
}

fn copied(m: &Words) -> Box<Words> {
    m.into()
}

fn ends(answer: &Answer, client: u32) -> bool {
    [READ_ENDED, WRITE_ENDED].contains(&answer.code) && answer.client == client
}

struct Search {
    client: u32,
    /// Deliveries tried, and how many may be.
    tries: usize,
    most_tries: usize,
    /// The longest list of this round.
    most: u32,
    /// The least that a list cut off in this round would have had.
    next: Option<u32>,
    /// How early each state was met in this round.
    seen: HashMap<u64, u32>,
    list: Vec<u32>,
}

impl Search {
    fn new(client: u32, most_tries: usize) -> Search {
        Search { client, tries: 0, most_tries, most: 0, next: None, seen: HashMap::new(), list: Vec::new() }
    }

    fn begin(&mut self, most: u32) {
        self.most = most;
        self.next = None;
        self.seen.clear();
    }

    fn go(&mut self, m: &Words) -> bool {
        for slot in self.moves(m) {
            if self.tries == self.most_tries {
                return false;
            }
            self.tries += 1;
            let mut after = copied(m);
            let answer = rehearsal::run(&mut after, Call::Deliver { slot }).answer;
            self.list.push(slot);
            if ends(&answer, self.client) || (answer.accepted() && self.worth(&after) && self.go(&after)) {
                return true;
            }
            self.list.pop();
        }
        false
    }

    /// Whether a list may go on from here. A write that was SPENT is not open any more.
    fn worth(&mut self, m: &Words) -> bool {
        let Some(to_come) = Open::of(m, self.client).and_then(|open| least(m, &open)) else { return false };
        let made = self.list.len() as u32;
        if made + to_come > self.most {
            self.cut(made + to_come);
            return false;
        }
        let met = self.seen.entry(key(m)).or_insert(u32::MAX);
        let earlier = made < *met;
        *met = made.min(*met);
        earlier
    }

    fn cut(&mut self, length: u32) {
        self.next = Some(self.next.map_or(length, |next| next.min(length)));
    }

    /// Slots worth a try: own replies, own requests, then the others. Those answer nothing, so
    /// they are of use only for the slots that they free, or where the limit has some to spare.
    fn moves(&mut self, m: &Words) -> Vec<u32> {
        let Some(open) = Open::of(m, self.client) else { return Vec::new() };
        let of = |part: Part| {
            let waiting = view::waiting(m).into_iter();
            waiting.filter(move |&slot| view::message(m, slot).is_some_and(|message| open.part(&message) == part))
        };
        let spared = least(m, &open).is_some_and(|to_come| self.list.len() as u32 + to_come < self.most);
        let mut slots: Vec<u32> = of(Part::Reply).chain(of(Part::Request)).collect();
        if spared || wants_slots(m, &open) {
            slots.extend(of(Part::Other));
        } else if of(Part::Other).next().is_some() {
            self.cut(self.most + 1);
        }
        slots
    }
}

/// A machine but for the places of its messages: they tell nothing of what can follow. Equal
/// keys of unequal machines are next to impossible, and could hide a list but not make one.
pub fn key(m: &Words) -> u64 {
    let (tables, slots) = m.split_at(slot_at(m, 1));
    let mail = slots.chunks_exact(SLOT_ROW).filter(|row| row[0] != 0);
    let bag = mail.fold(0u64, |sum, row| sum.wrapping_add(hash(row)));
    hash(tables).wrapping_add(bag)
}

fn hash(words: &[u32]) -> u64 {
    let mut hasher = DefaultHasher::new();
    words.hash(&mut hasher);
    hasher.finish()
}
