//! Whose fault it is.

use super::wander::{standings, wander};
use bench::compare::copy_output;
use bench::ending::Ending;
use bench::history::{lines, Printed};
use bench::premises::Premise;
use bench::prng::Prng;
use bench::schedule;
use bench::why::{end, explain, verdict, Explained, Verdict};
use copy::answer::{READ_ENDED, WRITE_ENDED};
use std::collections::BTreeMap;

#[test]
fn judges_every_outcome() {
    let found = |length| Ending::Found(vec![1; length]);
    let long = |length| Ending::Long(vec![1; length], 9);
    let fails = [Premise::Client { client: 1 }];
    let ours = |premises: &[Premise], ending| matches!(verdict(premises, &ending, 7), Verdict::Ours(_));
    assert_eq!(verdict(&[], &found(7), 7), Verdict::NothingStopsIt);
    for ending in [found(6), found(8), long(7), Ending::None, Ending::NotWithin(9), Ending::Refuted(vec![1; 7])] {
        assert!(ours(&[], ending.clone()), "{ending:?}");
    }
    for length in 6..9 {
        assert_eq!(verdict(&fails, &found(length), 7), Verdict::EndsAllTheSame);
        assert_eq!(verdict(&fails, &long(length), 7), Verdict::EndsAllTheSame);
    }
    for ending in [Ending::None, Ending::NotWithin(9)] {
        assert_eq!(verdict(&fails, &ending, 7), Verdict::TheBoat);
    }
    // A list that does not do what was found of it is never the boat's.
    assert!(ours(&fails, Ending::Refuted(vec![1; 7])));
}

fn name(premise: &Premise) -> &'static str {
    match premise {
        Premise::Client { .. } => "client down",
        Premise::Directories { .. } => "directories down",
        Premise::NoWholeColumn { .. } => "no whole column",
        Premise::Column { .. } => "column down",
        Premise::Replicas { .. } => "replicas down",
        Premise::Set { .. } => "set down",
        Premise::Room { .. } => "entries",
        Premise::Top { .. } => "number at top",
        Premise::TopRead => "top read",
        Premise::Slots { .. } => "slots",
    }
}

/// The printed list, behind the schedule, ends the operation of the client in its last line.
fn ends_behind(input: &[u8], one: &Explained) {
    let (Ending::Found(list) | Ending::Long(list, _)) = &one.ending else { return };
    let more: String = list.iter().map(|slot| format!("D {slot}\n")).collect();
    let output = copy_output(&[input, more.as_bytes()].concat());
    let last = lines(&output).last().and_then(Printed::parse).expect("a last line");
    let code = if one.open.is_read() { READ_ENDED } else { WRITE_ENDED };
    assert_eq!((last.code, last.client), (code, one.open.client), "{}", one.text());
}

/// Generated schedules, half of them with some crashes at their end; machines soon spent; and
/// machines in columns.
fn inputs() -> impl Iterator<Item = Vec<u8>> {
    let generated = (0..1000).map(|seed| {
        let mut input = schedule(seed, 60 + (seed * 37 % 400) as usize);
        let mut rng = Prng::new(seed);
        for _ in 0..(seed % 2) * 4 {
            input.extend(format!("X {} {}\n", rng.between(2, 3), rng.between(1, 7)).bytes());
        }
        input
    });
    let spent = (0..1000).map(|seed| wander(&mut Prng::new(seed), "S 8 2 1 0 2 1 3 7", 150, true).into_bytes());
    let in_columns = standings().flat_map(|(nd, columns)| {
        (0..40).map(move |seed| {
            let top = if seed % 4 == 0 { 3 } else { 99 };
            let set_up = format!("C 4 {nd} 3 1 {columns} {top} 7");
            wander(&mut Prng::new(seed), &set_up, 200, true).into_bytes()
        })
    });
    generated.chain(spent).chain(in_columns)
}

#[test]
fn no_schedule_is_ours() {
    let mut counts: BTreeMap<&str, usize> = BTreeMap::new();
    let mut count = |what| *counts.entry(what).or_default() += 1;
    for (at, input) in inputs().enumerate() {
        let end = end(&input);
        for one in explain(end.words(), end.starts(), 2000) {
            ends_behind(&input, &one);
            one.failing.iter().for_each(|premise| count(name(premise)));
            count(match one.verdict() {
                Verdict::NothingStopsIt => "that nothing stops",
                Verdict::EndsAllTheSame => "that end all the same",
                Verdict::TheBoat => "by the boat's fault",
                Verdict::Ours(_) => panic!("input {at}: {}", one.text()),
            });
        }
    }
    let shown: Vec<String> = counts.iter().map(|(what, count)| format!("{count} {what}")).collect();
    println!("{}", shown.join(", "));
    assert_eq!(counts.len(), 13, "each premise and each verdict but OURS: {counts:?}");
}
