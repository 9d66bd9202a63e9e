//! What the generator promises.

use bench::compare::copy_output;
use bench::history::{lines, Printed};
use bench::open::up;
use bench::tally::Tally;
use bench::{cold_schedule, night, schedule};
use copy::layout::Party;
use copy::line::{parse, Call};
use copy::{Layout, Numbers, Rehearsal};
use std::collections::{BTreeMap, HashSet};

#[test]
fn one_seed_one_schedule() {
    for seed in 0..20 {
        let input = schedule(seed, 300);
        assert_eq!(input, schedule(seed, 300));
        assert_ne!(input, schedule(seed + 1, 300));
        assert_eq!(lines(&input).count(), 300);
        assert!(input.ends_with(b"\n"));
        assert!(copy_output(&input).starts_with(b"1 0 "), "begins with an accepted set-up");
    }
}

/// Pages tell writes apart: no word is used twice in a schedule.
#[test]
fn words_are_distinct() {
    for seed in 0..100 {
        let input = schedule(seed, 500);
        let words = lines(&input).filter_map(|line| match parse(line)? {
            Call::SetUp { layout, numbers, word } if numbers.in_range(layout) => Some(word),
            Call::Write { word, .. } => Some(word),
            _ => None,
        });
        let mut seen = HashSet::new();
        assert!(words.into_iter().all(|word| seen.insert(word)), "seed {seed}");
    }
}

#[test]
fn lines_count_at_the_machine_that_they_ask() {
    let input = b"R 1\nC 1 4 1 0 3 6 7\nC 1 4 1 0 2 6 7\nR 1\nS 1 1 1 0 1 0 6 7\nR 1\nQ\n\
        S 1 1 1 0 1 1 6 7\nR 1\nC 1 2 1 0 1 6 7";
    let mut tally = Tally::default();
    tally.add(input, &copy_output(input));
    let ended = "1 set-up, 0 reads (0 with a newer page) and 0 writes ended";
    assert_eq!(tally.base.to_string(), format!("{ended}, codes 0:2 17:1 18:2"));
    assert_eq!(tally.wide.to_string(), format!("{ended}, codes 0:2 18:2 20:1"));
}

/// Every code that lines can reach comes on both machines, operations end, and some reads are overtaken.
#[test]
fn schedules_go_deep() {
    let mut tally = Tally::default();
    let mut add = |input: Vec<u8>| tally.add(&input, &copy_output(&input));
    (0..1000).for_each(|seed| add(schedule(seed, 400)));
    (0..20).for_each(|seed| add(cold_schedule(seed, 20)));
    println!("{tally}");
    // A machine in columns that is not set up is never asked.
    assert!(tally.base.codes[17] > 20 && tally.wide.codes[17] == 0, "{tally}");
    for sort in [tally.base, tally.wide] {
        for code in (0..=5).chain(18..=24) {
            assert!(sort.codes[code] > 20, "code {code} is rare: {sort}");
        }
        let ended = sort.reads() + sort.writes();
        assert!(ended * 80 > sort.lines(), "few operations end: {sort}");
        assert!(sort.newer * 20 > sort.reads(), "few reads get a newer page: {sort}");
    }
}

/// 2 to 16 directories in every number of equal columns, a third of all machines.
#[test]
fn every_shape_of_columns() {
    const SEEDS: u64 = 6000;
    let mut shapes = BTreeMap::new();
    for seed in 0..SEEDS {
        let input = schedule(seed, 1);
        let Some(Call::SetUp { layout, numbers, .. }) = parse(input.trim_ascii_end()) else { panic!("a set-up") };
        assert!(numbers.in_range(layout), "{numbers:?}");
        if layout == Layout::Wide {
            *shapes.entry((numbers.nd, numbers.columns)).or_insert(0) += 1;
        }
    }
    println!("{shapes:?}");
    assert!((1..=16).all(|columns| shapes.contains_key(&(16, columns)) == (16 % columns == 0)));
    assert_eq!(shapes.len(), 49, "the divisors of 2 to 16");
    assert!(shapes.values().all(|&count| count > 5), "{shapes:?}");
    let wide = shapes.values().sum::<u64>();
    assert!(wide * 4 > SEEDS && wide * 5 < SEEDS * 2, "{wide} of {SEEDS}");
}

/// What is wrong with a set-up of columns, if anything is.
fn wrong_with(line: &[u8]) -> Option<&'static str> {
    let fields = line.split(|&byte| byte == b' ').count() - 1;
    match parse(line) {
        None if line.starts_with(b"C ") && fields < 7 => Some("too few fields"),
        None if line.starts_with(b"C ") && fields > 7 => Some("too many fields"),
        Some(Call::SetUp { layout: Layout::Wide, numbers: Numbers { nd, columns, .. }, .. }) => match (nd, columns) {
            (1, _) => Some("one directory"),
            (17, _) => Some("17 directories"),
            (_, 0) => Some("no column"),
            (2..=16, _) if columns == nd + 1 => Some("one column more than directories"),
            (2..=16, _) if columns < nd && nd % columns != 0 => Some("unequal columns"),
            _ => None,
        },
        _ => None,
    }
}

/// Both machines follow one another in a schedule, and each is in force when columns are refused.
#[test]
fn both_machines_in_one_schedule() {
    let mut refused = BTreeMap::new();
    let mut changes = [0; 2];
    for seed in 0..1000 {
        let mut machine = Rehearsal::new();
        for (at, line) in lines(&schedule(seed, 600)).enumerate() {
            let before = Layout::of(machine.words());
            let code = machine.step(line).answer.code;
            if let Some(wrong) = wrong_with(line).filter(|_| at > 0) {
                assert_eq!(code, 18, "{wrong}");
                *refused.entry((wrong, before == Layout::Wide)).or_insert(0) += 1;
            }
            let after = Layout::of(machine.words());
            if at > 0 && before != after {
                changes[usize::from(after == Layout::Wide)] += 1;
            }
        }
    }
    println!("{refused:?} {changes:?}");
    assert_eq!(refused.len(), 14, "{refused:?}");
    assert!(refused.values().all(|&count| count > 1), "{refused:?}");
    assert!(changes.iter().all(|&count| count > 100), "{changes:?}");
}

/// Of the directories of a machine in columns mostly enough stay up, and not always.
#[test]
fn crashes_in_columns() {
    let mut seen = [0; 2];
    for seed in (1..2000).step_by(5) {
        let mut machine = Rehearsal::new();
        for line in lines(&schedule(seed, 500)) {
            let crash = matches!(parse(line), Some(Call::Crash { kind: 2, .. }));
            let done = machine.step(line).answer.code == 0;
            let n = Numbers::read(machine.words());
            if crash && done && n.layout() == Layout::Wide {
                let up = up(machine.words(), Party::Directory, n.nd);
                seen[usize::from(n.enough_to_read(up) && n.enough_to_write(up))] += 1;
            }
        }
    }
    println!("{seen:?}");
    assert!(seen[0] > 5 && seen[1] > 100, "{seen:?}");
}

#[test]
fn a_night_is_all_accepted() {
    let input = night::night(5000);
    let output = copy_output(&input);
    assert_eq!(lines(&input).count(), 5000);
    let accepted = |line: &[u8]| Printed::parse(line).is_some_and(|printed| printed.code < 16);
    assert!(lines(&output).all(accepted));
}
