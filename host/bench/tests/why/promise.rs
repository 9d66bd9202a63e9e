//! The promised number of deliveries, from many reached states.

use super::idle::{a_read, a_write, may_read, may_write, slots_asked, started};
use super::wander::{standings, wander};
use bench::ending::{shortest, Ending, TRIES};
use bench::history::lines;
use bench::prng::Prng;
use bench::why::end;
use bench::{schedule, view};
use copy::layout::SLOTS;
use copy::line::Call;
use copy::rehearsal::run;
use copy::{Layout, Numbers, Rehearsal, Words};

/// The list is found, has the promised length, and ends with the code when it is run.
fn keeps_promise(m: &Words, client: u32, (start, price, code): (Call, u32, u32), told: &str) {
    let mut words = started(m, start);
    let Ending::Found(list) = shortest(&words, client, TRIES) else { panic!("{told}: {start:?}: no list") };
    assert_eq!(list.len() as u32, price, "{told}: {start:?}: {list:?}");
    let codes: Vec<u32> = list.iter().map(|&slot| run(&mut words, Call::Deliver { slot }).answer.code).collect();
    assert_eq!(codes.last(), Some(&code), "{told}: {start:?}: {list:?}");
    assert!(codes[..codes.len() - 1].iter().all(|&code| code == 0), "{told}: {start:?}: {codes:?}");
}

/// Ten states on the way of a generated schedule, each with a name.
fn reached(seed: u64) -> Vec<(Box<Words>, String)> {
    let mut machine = Rehearsal::new();
    let mut states = Vec::new();
    for (at, line) in lines(&schedule(seed, 260)).enumerate() {
        machine.step(line);
        if at % 26 == 25 {
            states.push((machine.words().into(), format!("seed {seed}, line {}", at + 1)));
        }
    }
    states
}

/// Machines in columns after some lines, half of them with crashes.
fn reached_in_columns() -> Vec<(Box<Words>, String)> {
    let mut states = Vec::new();
    for ((nd, columns), seed) in standings().flat_map(|standing| (0..40).map(move |seed| (standing, seed))) {
        let text = wander(&mut Prng::new(seed), &format!("C 3 {nd} 3 1 {columns} 99 7"), 200, seed % 2 == 0);
        states.push((end(text.as_bytes()).words().into(), format!("{nd} in {columns}, seed {seed}")));
    }
    states
}

/// Reads and writes that have the promised length.
fn kept(states: impl Iterator<Item = (Box<Words>, String)>) -> (usize, usize) {
    let mut rng = Prng::new(11);
    let (mut reads, mut writes, mut mail) = (0, 0, 0);
    for (m, told) in states {
        let n = Numbers::read(&m);
        let ready = view::startable(&m, &n);
        let client = if ready.is_empty() { 1 } else { rng.pick(&ready) };
        if may_read(&m, &n, client) {
            keeps_promise(&m, client, a_read(&n, client), &told);
            reads += 1;
            mail += view::waiting(&m).len();
        }
        if may_write(&m, &n, client) {
            keeps_promise(&m, client, a_write(&n, client), &told);
            writes += 1;
        }
    }
    println!("{reads} reads and {writes} writes: each list has the promised length, beside {mail} waiting messages");
    (reads, writes)
}

#[test]
fn the_promised_length() {
    let (reads, writes) = kept((0..400).flat_map(reached));
    assert!(reads >= 1000 && writes >= 1000);
}

#[test]
fn the_promised_length_in_columns() {
    let (reads, writes) = kept(reached_in_columns().into_iter());
    assert!(reads >= 100 && writes >= 100);
}

/// Every size of machine with two replicas or more.
fn sizes() -> Vec<(Layout, Numbers)> {
    let mut all = Vec::new();
    for (nr, f) in (2..=7).flat_map(|nr| (0..4).map(move |f| (nr, f))) {
        let one = Numbers { nc: 1, nd: 0, nr, f, rq: 0, wq: 0, top: 3, columns: 0 };
        for (nd, rq, wq) in (1..=5).flat_map(|nd| (1..=nd).flat_map(move |rq| (1..=nd).map(move |wq| (nd, rq, wq)))) {
            all.push((Layout::Base, Numbers { nd, rq, wq, ..one }));
        }
        all.extend(standings().map(|(nd, columns)| (Layout::Wide, Numbers { nd, columns, ..one })));
    }
    all.retain(|(layout, n)| n.in_range(*layout));
    all
}

/// Directories that need not be up: all but the greater quorum; in columns all but the last
/// column and the first of each other.
fn may_be_down(n: &Numbers) -> Vec<u32> {
    match n.columns {
        0 => (1..=n.nd - n.rq.max(n.wq)).collect(),
        columns => (columns + 1..=n.nd).filter(|directory| directory % columns != 0).collect(),
    }
}

/// The worst that the premises bear: the empty slots asked for and no more, and all who may be down.
fn at_the_border(layout: Layout, n: &Numbers) -> Vec<u32> {
    let mut words = vec![0; layout.words()];
    run(&mut words, Call::SetUp { layout, numbers: *n, word: 7 });
    for _ in 0..SLOTS - slots_asked(n) {
        run(&mut words, Call::Gossip { from: 1, to: 2 });
    }
    let replicas = (1..=n.f).map(|id| Call::Crash { kind: 3, id });
    let directories = may_be_down(n).into_iter().map(|id| Call::Crash { kind: 2, id });
    for crash in replicas.chain(directories) {
        run(&mut words, crash);
    }
    words
}

#[test]
fn the_promised_length_at_the_border() {
    for (layout, n) in sizes() {
        let m = at_the_border(layout, &n);
        let told = format!("{n:?}");
        assert!(may_write(&m, &n, 1) && view::waiting(&m).len() == SLOTS - slots_asked(&n), "{told}");
        keeps_promise(&m, 1, a_read(&n, 1), &told);
        keeps_promise(&m, 1, a_write(&n, 1), &told);
    }
    println!("{} sizes of machine: the promised length with 21 empty slots, in columns 43", sizes().len());
}
