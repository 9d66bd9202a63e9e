//! Both kinds of shortage at once: replica 2 hears of every write but that it is secured, so
//! its entries fill up; then gossip of a later tag to it fills the slots.

use crate::prng::Prng;
use crate::view;
use copy::layout::{ends, entries_at, Party, Words, ENTRIES, ENTRY_ROW, GOSSIP, SECURE, SLOTS};
use copy::mail::Message;
use copy::Numbers;

pub fn is_for(n: &Numbers) -> bool {
    n.nr == 2 && n.f == 0 && n.nd > 1 && n.nc == 8
}

pub fn line(rng: &mut Prng, m: &Words, n: &Numbers, word: u32) -> String {
    let waiting = view::waiting(m);
    let full = !m[entries_at(m, 2)..][..ENTRIES * ENTRY_ROW].chunks_exact(ENTRY_ROW).any(|row| row[0] == 0);
    if full && waiting.len() < SLOTS && rng.one_in(2) {
        return "G 1 2".to_string();
    }
    if rng.one_in(12) {
        return "T 1".to_string();
    }
    let ready = view::startable(m, n);
    let wanted = |&slot: &u32| view::message(m, slot).is_some_and(|message| moves(&message, full));
    let likely: Vec<u32> = waiting.iter().copied().filter(wanted).collect();
    match (ready.is_empty(), likely.is_empty()) {
        (false, _) if likely.is_empty() || rng.one_in(10) => format!("W {} {word}", rng.pick(&ready)),
        (_, false) => format!("D {}", rng.pick(&likely)),
        _ if waiting.is_empty() => "G 1 2".to_string(),
        _ => format!("D {}", rng.pick(&waiting)),
    }
}

/// Until replica 2 is full it is told nothing of secured tags; afterwards everything moves.
fn moves(message: &Message, full: bool) -> bool {
    let to_second = ends(message.kind).1 == Party::Replica && message.to == 2;
    full || !(to_second && [SECURE, GOSSIP].contains(&message.kind))
}
