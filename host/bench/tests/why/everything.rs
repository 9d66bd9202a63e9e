//! Every list of deliveries is tried on small machines.

use super::idle::{operations, started};
use super::wander::{call, wander, SMALL, SMALL_IN_COLUMNS};
use bench::ending::{key, Ending, TRIES};
use bench::prng::Prng;
use bench::view;
use bench::why::{end, explain, End, Explained};
use copy::answer::{READ_ENDED, WRITE_ENDED};
use copy::layout::SLOTS;
use copy::line::Call;
use copy::rehearsal::run;
use copy::Words;
use std::collections::HashSet;

/// Words that are not zero: many states of a small machine are kept at once.
struct Packed {
    length: usize,
    words: Vec<(usize, u32)>,
}

fn packed(m: &Words) -> Packed {
    let words = m.iter().copied().enumerate().filter(|&(_, word)| word != 0).collect();
    Packed { length: m.len(), words }
}

fn unpacked(packed: &Packed) -> Vec<u32> {
    let mut words = vec![0; packed.length];
    packed.words.iter().for_each(|&(at, word)| words[at] = word);
    words
}

/// Every state that deliveries reach from a machine, by how many it takes. No bound guides it.
struct Everything {
    client: u32,
    /// Calls that are tried between deliveries and count nothing, while little mail waits.
    free: Vec<Call>,
    seen: HashSet<u64>,
}

const LITTLE_MAIL: usize = 5;

impl Everything {
    fn of(client: u32, free: &[&str]) -> Everything {
        Everything { client, free: free.iter().map(|line| call(line)).collect(), seen: HashSet::new() }
    }

    /// The least number of deliveries that end the client's operation, if any do.
    fn first_end(&mut self, m: &Words) -> Option<u32> {
        self.seen.insert(key(m));
        let mut level = vec![packed(m)];
        let mut depth = 0;
        while !level.is_empty() {
            depth += 1;
            let mut next = Vec::new();
            while let Some(state) = level.pop() {
                let words = unpacked(&state);
                self.call_freely(&words, &mut level);
                if self.deliver_each(&words, &mut next) {
                    return Some(depth);
                }
            }
            level = next;
        }
        None
    }

    fn call_freely(&mut self, m: &Words, level: &mut Vec<Packed>) {
        for &call in &self.free {
            let mut after: Box<Words> = m.into();
            let accepted = run(&mut after, call).answer.accepted();
            if accepted && view::waiting(&after).len() <= LITTLE_MAIL && self.seen.insert(key(&after)) {
                level.push(packed(&after));
            }
        }
    }

    fn deliver_each(&mut self, m: &Words, next: &mut Vec<Packed>) -> bool {
        for slot in view::waiting(m) {
            let mut after: Box<Words> = m.into();
            let answer = run(&mut after, Call::Deliver { slot }).answer;
            if [READ_ENDED, WRITE_ENDED].contains(&answer.code) && answer.client == self.client {
                return true;
            }
            if answer.accepted() && self.seen.insert(key(&after)) {
                next.push(packed(&after));
            }
        }
        false
    }
}

/// States after some lines, with so much mail at most; each with its schedule.
fn reached(set_ups: &[&str], seeds: u64, mail: usize, crashes: bool) -> Vec<(String, End)> {
    let all = set_ups.iter().flat_map(|set_up| (0..seeds).map(move |seed| (set_up, seed)));
    let texts = all.map(|(set_up, seed)| wander(&mut Prng::new(seed), set_up, 60, crashes));
    let ends = texts.map(|text| {
        let end = end(text.as_bytes());
        (text, end)
    });
    ends.filter(|(_, end)| view::waiting(end.words()).len() <= mail).collect()
}

/// Operations that end at their price and not before.
fn end_at_their_price(states: Vec<(String, End)>) -> usize {
    let (mut count, mut states_seen) = (0, 0);
    for (text, end) in states {
        for (client, (start, price, _)) in operations(end.words()) {
            let mut everything = Everything::of(client, &[]);
            assert_eq!(everything.first_end(&started(end.words(), start)), Some(price), "{text}{start:?}");
            count += 1;
            states_seen += everything.seen.len();
        }
    }
    println!("{count} operations, {states_seen} states visited: each ends at its price and not before");
    count
}

#[test]
fn no_shorter_list() {
    assert!(end_at_their_price(reached(&SMALL, 60, LITTLE_MAIL, false)) >= 100);
}

#[test]
fn no_shorter_list_in_columns() {
    for set_up in SMALL_IN_COLUMNS {
        assert!(end_at_their_price(reached(&[set_up], 60, 1, false)) >= 4, "{set_up}");
    }
}

/// Nor do other calls in between make it shorter: only deliveries count.
#[test]
fn no_shorter_list_with_other_calls() {
    let tried = [
        ("S 2 1 1 0 1 1 99 7", ["R 2", "W 2 8", "T 1", "X 1 2", "X 2 1", "X 3 1"]),
        ("S 2 1 2 0 1 1 99 7", ["R 2", "W 2 8", "G 1 2", "T 2", "X 1 2", "X 3 1"]),
        ("S 2 2 1 0 1 2 99 7", ["R 2", "W 2 8", "T 1", "X 1 2", "X 2 2", "X 3 1"]),
        ("S 2 2 1 0 2 1 99 7", ["R 2", "W 2 8", "T 1", "X 1 2", "X 2 2", "X 3 1"]),
        ("C 2 2 1 0 1 99 7", ["R 2", "W 2 8", "T 1", "X 1 2", "X 2 2", "X 3 1"]),
        ("C 2 2 1 0 2 99 7", ["R 2", "W 2 8", "T 1", "X 1 2", "X 2 2", "X 3 1"]),
    ];
    let (mut count, mut states) = (0, 0);
    for (set_up, free) in tried {
        let end = end(format!("{set_up}\n").as_bytes());
        for (client, (start, price, _)) in operations(end.words()).into_iter().filter(|(client, _)| *client == 1) {
            let mut everything = Everything::of(client, &free);
            assert_eq!(everything.first_end(&started(end.words(), start)), Some(price), "{set_up}, {start:?}");
            count += 1;
            states += everything.seen.len();
        }
    }
    println!("{count} operations, {states} states visited: no other calls make them shorter");
}

/// What the guided search found against all that there is; gives back the states visited.
fn agrees(text: &str, one: &Explained, m: &Words) -> usize {
    let mut everything = Everything::of(one.open.client, &[]);
    let least = everything.first_end(m);
    let same = match (&one.ending, least) {
        (Ending::Found(list), Some(least)) => list.len() as u32 == least,
        (Ending::None | Ending::NotWithin(_), None) => true,
        _ => false,
    };
    assert!(same, "{text}{}{least:?}", one.text());
    everything.seen.len()
}

/// Lists that are shortest, and operations that have none, where premises fail too.
fn misses_nothing(states: Vec<(String, End)>) -> (usize, usize) {
    let (mut found, mut none, mut states_seen) = (0, 0, 0);
    for (text, end) in states {
        for one in explain(end.words(), end.starts(), TRIES) {
            states_seen += agrees(&text, &one, end.words());
            match one.ending {
                Ending::Found(_) => found += 1,
                _ => none += 1,
            }
        }
    }
    println!("{found} lists are shortest, and {none} operations have none: {states_seen} states visited");
    (found, none)
}

#[test]
fn the_search_misses_nothing() {
    let spending = ["S 3 2 1 0 2 1 3 7", "S 3 2 1 0 1 2 3 7", "S 2 3 2 0 2 2 99 7"];
    let (found, none) = misses_nothing(reached(&[&SMALL[..], &spending].concat(), 300, LITTLE_MAIL, true));
    assert!(found >= 100 && none >= 100);
}

#[test]
fn the_search_misses_nothing_in_columns() {
    let spending = ["C 3 2 1 0 1 3 7", "C 3 2 1 0 2 3 7", "C 3 4 1 0 2 3 7"];
    let (found, none) = misses_nothing(reached(&[&SMALL_IN_COLUMNS[..], &spending].concat(), 30, LITTLE_MAIL, true));
    assert!(found >= 100 && none >= 50);
}

/// Lists that are longer for want of slots. Nearly all are full of one gossip, so there are few
/// states for so much mail.
fn longer_for_want_of_slots(starts: &[&str]) -> usize {
    let (mut longer, mut states) = (0, 0);
    for (start, crash) in starts.iter().flat_map(|start| ["", "X 3 2\n"].map(|crash| (start, crash))) {
        for empty in 0..4 {
            let waiting = view::waiting(end(start.as_bytes()).words()).len();
            let text = format!("{start}{}{crash}", "G 1 2\n".repeat(SLOTS - waiting - empty));
            let end = end(text.as_bytes());
            let one = &explain(end.words(), end.starts(), TRIES)[0];
            states += agrees(&text, one, end.words());
            longer += usize::from(matches!(&one.ending, Ending::Found(list) if list.len() as u32 > one.open.left()));
        }
    }
    println!("{longer} lists are longer for want of slots, and shortest: {states} states visited");
    longer
}

#[test]
fn the_search_misses_nothing_when_slots_are_few() {
    let starts = ["S 1 1 2 0 1 1 99 7\nR 1\n", "S 1 1 2 0 1 1 99 7\nW 1 9\n", "S 1 2 3 1 2 1 99 7\nR 1\n"];
    assert!(longer_for_want_of_slots(&starts) >= 5);
}

/// In the last two, the column with an answer lacks one, and the other has its two replies
/// waiting: as cheap, and one slot more is emptied.
#[test]
fn the_search_misses_nothing_in_columns_when_slots_are_few() {
    let starts = [
        "C 1 2 2 0 1 99 7\nR 1\n",
        "C 1 2 2 0 2 99 7\nR 1\n",
        "C 1 2 2 0 2 99 7\nW 1 9\n",
        "C 1 4 2 0 2 99 7\nR 1\nD 1\nD 1\nD 2\nD 4\n",
        "C 1 4 2 0 2 99 7\nW 1 9\nD 1\nD 1\nD 2\nD 4\n",
    ];
    assert!(longer_for_want_of_slots(&starts) >= 5);
}
