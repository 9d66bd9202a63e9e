//! A long schedule of accepted calls, for timing.

use crate::odd::set_up_line;
use crate::prng::Prng;
use crate::view;
use copy::layout::{entries_at, ENTRIES, ENTRY_ROW, GOSSIP, SECURE};
use copy::replica::entries;
use copy::{Numbers, Rehearsal, Tag, Words};

const NUMBERS: Numbers = Numbers { nc: 8, nd: 5, nr: 7, f: 3, rq: 3, wq: 3, top: u32::MAX, columns: 0 };

/// With more entries a replica is helped before it is full and everything stands still.
const CROWDED: usize = 8;

/// With more waiting messages nothing is started.
const MANY: usize = 90;

pub fn night(lines: usize) -> Vec<u8> {
    let mut rng = Prng::new(0x0001_6870);
    let mut machine = Rehearsal::new();
    let mut out = Vec::new();
    let mut word = 1;
    let mut count = 0;
    let mut line = set_up_line(&NUMBERS, word);
    while count < lines {
        // A refused line changes nothing, so it is just not written down.
        if machine.step(line.as_bytes()).answer.accepted() {
            out.extend_from_slice(line.as_bytes());
            out.push(b'\n');
            count += 1;
        }
        word += 1;
        line = next_line(&mut rng, machine.words(), word);
    }
    out
}

fn next_line(rng: &mut Prng, m: &Words, word: u32) -> String {
    let waiting = view::waiting(m);
    let crowded = (1..=NUMBERS.nr).find(|&id| used(m, id) >= CROWDED);
    if let Some(line) = crowded.and_then(|id| relief(m, id, &waiting)) {
        return line;
    }
    let ready = if waiting.len() < MANY { view::startable(m, &NUMBERS) } else { Vec::new() };
    match rng.below(200) {
        0..=29 if !ready.is_empty() && rng.one_in(2) => format!("W {} {word}", rng.pick(&ready)),
        0..=29 if !ready.is_empty() => format!("R {}", rng.pick(&ready)),
        30 => format!("G {} {}", rng.between(1, 7), rng.between(1, 7)),
        _ if waiting.is_empty() => format!("R {}", rng.between(1, 8)),
        _ => format!("D {}", rng.pick(&waiting)),
    }
}

fn used(m: &Words, id: u32) -> usize {
    let at = entries_at(m, id);
    m[at..at + ENTRIES * ENTRY_ROW].chunks_exact(ENTRY_ROW).filter(|row| row[0] != 0).count()
}

fn highest(m: &Words, id: u32) -> Tag {
    entries(m, id).highest().0
}

/// What makes room at a replica: tidy, or first news of a higher secured tag.
fn relief(m: &Words, id: u32, waiting: &[u32]) -> Option<String> {
    let top = highest(m, id);
    let at = entries_at(m, id);
    let below = |row: &[u32]| row[0] != 0 && Tag::new(row[1], row[2]) < top;
    if m[at..at + ENTRIES * ENTRY_ROW].chunks_exact(ENTRY_ROW).any(below) {
        return Some(format!("T {id}"));
    }
    let news = waiting.iter().find(|&&slot| {
        let message = view::message(m, slot);
        message.is_some_and(|message| message.to == id && [SECURE, GOSSIP].contains(&message.kind) && message.tag > top)
    });
    if let Some(slot) = news {
        return Some(format!("D {slot}"));
    }
    let best = (1..=NUMBERS.nr).max_by_key(|&other| highest(m, other))?;
    (highest(m, best) > top && waiting.len() < MANY).then(|| format!("G {best} {id}"))
}
