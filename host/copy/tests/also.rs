//! The "also run" cases, the bad machine and the order of refusals.

mod common;
use common::*;
use copy::answer::*;
use copy::layout::*;
use copy::{crash, deliver, gossip, machine, report, set_up, start_read, start_write, tidy, Report};

fn set_up_code(nc: u32, nd: u32, nr: u32, f: u32, rq: u32, wq: u32, top: u32) -> u32 {
    set_up(&mut vec![0; WORDS], numbers(nc, nd, nr, f, rq, wq, top), &[0; 16]).code
}

#[test]
fn ranges_of_set_up() {
    assert_eq!(set_up_code(1, 3, 1, 0, 1, 2, 9), BAD_ARGUMENT);
    assert_eq!(set_up_code(1, 3, 1, 0, 2, 2, 9), DONE);
    assert_eq!(set_up_code(1, 1, 2, 1, 1, 1, 9), BAD_ARGUMENT);
    assert_eq!(set_up_code(1, 1, 3, 1, 1, 1, 9), DONE);
    assert_eq!(set_up_code(8, 5, 7, 3, 5, 5, u32::MAX), DONE);
    let bad = [
        (0, 1, 1, 0, 1, 1, 9),
        (9, 1, 1, 0, 1, 1, 9),
        (1, 0, 1, 0, 1, 1, 9),
        (1, 6, 1, 0, 6, 6, 9),
        (1, 1, 0, 0, 1, 1, 9),
        (1, 1, 8, 0, 1, 1, 9),
        (1, 1, 7, 4, 1, 1, 9),
        (1, 1, 1, 0, 0, 1, 9),
        (1, 1, 1, 0, 1, 2, 9),
        (1, 1, 1, 0, 1, 1, 2),
        (1, 5, 1, 0, u32::MAX, u32::MAX, 9),
        (1, 1, 7, u32::MAX, 1, 1, 9),
    ];
    for (nc, nd, nr, f, rq, wq, top) in bad {
        assert_eq!(set_up_code(nc, nd, nr, f, rq, wq, top), BAD_ARGUMENT, "{nc} {nd} {nr} {f} {rq} {wq} {top}");
    }
}

#[test]
fn worn_at_the_edge() {
    for (number, code) in [(6, DONE), (7, WORN), (9, WORN)] {
        let mut m = machine(1, 1, 1, 0, 1, 1, 9);
        m[CLIENT_BASE + 2] = number;
        assert_eq!(start_read(&mut m.clone(), 1).code, code, "{number}");
        assert_eq!(start_write(&mut m, 1, &page(5)).code, code, "{number}");
    }
    let mut m = machine(1, 1, 1, 0, 1, 1, u32::MAX);
    m[CLIENT_BASE + 2] = u32::MAX;
    assert_eq!(start_read(&mut m, 1).code, WORN);
}

#[test]
fn sizes() {
    for (layout, ok) in [(Layout::Base, numbers(1, 1, 1, 0, 1, 1, 9)), (Layout::Wide, in_columns(1, 2, 1, 0, 2, 9))] {
        let words = layout.words();
        assert_eq!(machine::set_up(layout, &mut vec![0; words - 1], ok, &[0; 16]).code, SIZE);
        assert_eq!(machine::set_up(layout, &mut vec![0; words], ok, &[0; 15]).code, SIZE);
        let mut long = vec![7; words + 3];
        assert_eq!(machine::set_up(layout, &mut long, ok, &[0; 16]).code, DONE);
        assert_eq!(long[words..], [7, 7, 7]);
        let short = &mut long[..words - 1];
        let all_short = [
            machine::start_read(layout, short, 1).code,
            machine::start_write(layout, short, 1, &[0; 16]).code,
            machine::deliver(layout, short, 1, &mut [0; 16]).code,
            machine::gossip(layout, short, 1, 1).code,
            machine::tidy(layout, short, 1).code,
            machine::crash(layout, short, 1, 1).code,
            machine::report(layout, short).code,
        ];
        assert_eq!(all_short, [SIZE; 7]);
        assert_eq!(machine::start_write(layout, &mut long, 0, &[0; 17]).code, SIZE);
        assert_eq!(machine::deliver(layout, &mut long, 0, &mut []).code, SIZE);
    }
}

#[test]
fn thirteenth_tag_is_full() {
    for kind in [WRITE, GOSSIP] {
        let mut m = machine(1, 1, 2, 0, 1, 1, 99);
        for number in 1..=12 {
            let message_number = u32::from(kind == WRITE);
            copy::mail::clear(&mut m, 1);
            put_message(&mut m, 1, [kind, 1, 2, number, 1, 0, message_number]);
            let before = m.clone();
            let code = deliver(&mut m, 1, &mut [0; 16]).code;
            assert_eq!(code, if number < 12 { DONE } else { FULL });
            assert_eq!(code == FULL, m == before);
        }
    }
}

#[test]
fn full_stands_before_no_slot() {
    let mut m = machine(1, 2, 2, 0, 1, 2, 99);
    for slot in 1..=128 {
        put_message(&mut m, slot, [GOSSIP, 1, 2, slot.min(12), 1, 0, 0]);
    }
    assert_eq!(deliver(&mut m, 1, &mut [0; 16]).code, NO_SLOT);
    assert_eq!(gossip(&mut m, 1, 2).code, NO_SLOT);
    assert_eq!(start_read(&mut m, 1).code, NO_SLOT);
    for number in 1..12 {
        let row = &mut m[ENTRY_BASE + (ENTRIES + number) * ENTRY_ROW..];
        row[..3].copy_from_slice(&[HELD, number as u32, 1]);
    }
    assert_eq!(deliver(&mut m, 12, &mut [0; 16]).code, FULL);
    assert_eq!(crash(&mut m, 3, 2).code, DONE);
    assert_eq!(deliver(&mut m, 12, &mut [0; 16]).code, DROPPED);
    assert_eq!(report(&mut m), Report { code: 0, waiting: 127, down: 1 });
}

#[test]
fn refusals_keep_every_word() {
    let mut m = machine(2, 1, 3, 1, 1, 1, 9);
    assert_eq!(start_read(&mut m, 1).code, DONE);
    assert_eq!(crash(&mut m, 1, 2).code, DONE);
    assert_eq!(crash(&mut m, 3, 3).code, DONE);
    let before = m.clone();
    assert_eq!(start_read(&mut m, 1).code, BUSY);
    assert_eq!(start_read(&mut m, 2).code, DOWN);
    assert_eq!(start_read(&mut m, 3).code, BAD_ARGUMENT);
    assert_eq!(crash(&mut m, 1, 2).code, DOWN);
    assert_eq!(crash(&mut m, 0, 1).code, BAD_ARGUMENT);
    assert_eq!(crash(&mut m, 4, 1).code, BAD_ARGUMENT);
    assert_eq!(gossip(&mut m, 2, 2).code, BAD_ARGUMENT);
    assert_eq!(gossip(&mut m, 3, 3).code, BAD_ARGUMENT);
    assert_eq!(gossip(&mut m, 3, 1).code, DOWN);
    assert_eq!(tidy(&mut m, 3).code, DOWN);
    assert_eq!(deliver(&mut m, 2, &mut [0; 16]).code, EMPTY);
    assert_eq!(deliver(&mut m, 0, &mut [0; 16]).code, BAD_ARGUMENT);
    assert_eq!(deliver(&mut m, 129, &mut [0; 16]).code, BAD_ARGUMENT);
    assert_eq!(m, before);
    assert_eq!(gossip(&mut m, 1, 3).code, DONE);
}

#[test]
fn zero_words_are_bad() {
    let m = &mut vec![0; WORDS];
    assert_eq!(report(m), Report { code: BAD_MACHINE, waiting: 0, down: 0 });
    assert_eq!(deliver(m, 0, &mut [0; 16]).code, BAD_MACHINE);
}

/// One word changed from a good machine with two clients, one directory, three replicas.
fn code_with(at: usize, word: u32) -> u32 {
    let mut m = machine(2, 1, 3, 1, 1, 1, 9);
    m[at] = word;
    report(&mut m).code
}

#[test]
fn every_unused_word_must_be_zero() {
    let m = machine(2, 1, 3, 1, 1, 1, 9);
    // Without these, a single 1 is in range: top, f, first pages, downs, message numbers, states.
    let free_page = |at: usize| (ENTRY_BASE..SLOT_BASE).contains(&at) && (at - ENTRY_BASE) % ENTRY_ROW >= 4;
    for (at, &word) in m.iter().enumerate().skip(7) {
        let in_first_entry = (0..3).any(|r| (0..ENTRY_ROW).contains(&at.wrapping_sub(ENTRY_BASE + r * 240)));
        let used = word != 0
            || [CLIENT_BASE, CLIENT_BASE + 2, CLIENT_BASE + 24, CLIENT_BASE + 26, DIRECTORY_BASE].contains(&at)
            || (REPLICA_DOWN..REPLICA_DOWN + 3).contains(&at)
            || (in_first_entry && free_page(at));
        if !used {
            assert_eq!(code_with(at, 1), BAD_MACHINE, "word {at}");
        }
    }
}

#[test]
fn words_out_of_range() {
    let bad = [
        (0, 9),
        (1, 2),
        (2, 2),
        (3, 4),
        (6, 2),
        (CLIENT_BASE, 2),
        (CLIENT_BASE + 1, 7),
        (CLIENT_BASE + 2, 10),
        (DIRECTORY_BASE, 2),
        (DIRECTORY_BASE + 1, 1),
        (DIRECTORY_BASE + 3, 8),
        (REPLICA_DOWN, 2),
        (ENTRY_BASE, 3),
        (ENTRY_BASE, 1),
        (ENTRY_BASE, 0),
        (ENTRY_BASE + 240, 1),
        (ENTRY_BASE + ENTRY_ROW, 2),
        (SLOT_BASE, 16),
        (SLOT_BASE, u32::MAX),
    ];
    for (at, word) in bad {
        assert_eq!(code_with(at, word), BAD_MACHINE, "word {at} = {word}");
    }
    for (at, word) in [(CLIENT_BASE + 2, 9), (CLIENT_BASE, 1), (DIRECTORY_BASE + 3, 0), (ENTRY_BASE + 4, 77)] {
        assert_eq!(code_with(at, word), DONE, "word {at} = {word}");
    }
}

#[test]
fn rounds_to_come() {
    for (phase, rounds) in [(1, 2), (2, 1), (3, 0), (4, 2), (5, 1), (6, 0)] {
        for (number, good) in [(0, false), (1, true), (9 - rounds, true), (10 - rounds, false)] {
            let mut m = machine(2, 1, 3, 1, 1, 1, 9);
            m[CLIENT_BASE + 1..CLIENT_BASE + 3].copy_from_slice(&[phase, number]);
            assert_eq!(report(&mut m).code == DONE, good, "phase {phase} number {number}");
        }
    }
}

#[test]
fn a_tag_twice_is_bad() {
    let mut m = machine(1, 1, 1, 0, 1, 1, 9);
    put_entries(&mut m, &[(SECURED, 0, 0), (HELD, 2, 1)]);
    assert_eq!(report(&mut m).code, DONE);
    put_entries(&mut m, &[(SECURED, 2, 1), (HELD, 2, 1)]);
    assert_eq!(report(&mut m).code, BAD_MACHINE);
    put_entries(&mut m, &[(HELD, 2, 1)]);
    assert_eq!(report(&mut m).code, BAD_MACHINE);
}

/// Every kind, with each field once present and once not.
#[test]
fn fields_that_kinds_carry() {
    for kind in 1..=15 {
        let set = [2, 4, 5].contains(&kind);
        let tag = set || [7, 9, 10, 11, 12, 14, 15].contains(&kind);
        let page = [10, 12, 15].contains(&kind);
        let number = u32::from(kind < 14);
        let code = |row: [u32; 7], word: u32| {
            let mut m = machine(2, 1, 3, 1, 1, 1, 9);
            put_message(&mut m, 128, row);
            m[WORDS - 1] = word;
            report(&mut m).code == DONE
        };
        assert!(code([kind, 1, 1, 0, 0, 0, number], 0), "{kind}");
        assert_eq!(code([kind, 1, 1, 9, 2, 0, number], 0), tag, "{kind}");
        assert!(!code([kind, 1, 1, 10, 2, 0, number], 0) && !code([kind, 1, 1, 9, 3, 0, number], 0));
        assert!(!code([kind, 1, 1, 0, 1, 0, number], 0) && !code([kind, 1, 1, 1, 0, 0, number], 0));
        assert_eq!(code([kind, 1, 1, 0, 0, 7, number], 0), set, "{kind}");
        assert!(!code([kind, 1, 1, 0, 0, 8, number], 0));
        assert_eq!(code([kind, 1, 1, 0, 0, 0, number], 6), page, "{kind}");
        assert_eq!(code([kind, 1, 1, 0, 0, 0, 9], 0), kind < 14, "{kind}");
        assert!(!code([kind, 1, 1, 0, 0, 0, 10], 0) && !code([kind, 1, 1, 0, 0, 0, 1 - number], 0));
        assert!(!code([kind, 0, 1, 0, 0, 0, number], 0) && !code([kind, 1, 0, 0, 0, 0, number], 0));
        let count = |party| match party {
            Party::Client => 2,
            Party::Directory => 1,
            Party::Replica => 3,
        };
        let (from, to) = ends(kind);
        assert!(code([kind, count(from), count(to), 0, 0, 0, number], 0));
        assert!(!code([kind, count(from) + 1, 1, 0, 0, 0, number], 0));
        assert!(!code([kind, 1, count(to) + 1, 0, 0, 0, number], 0));
    }
}

/// The set word: replicas in 2, 4 and 5, a mark in 12, nothing in the others.
#[test]
fn sets_and_marks_that_kinds_carry() {
    for good in [machine(2, 1, 3, 1, 1, 1, 9), wide_machine(2, 2, 3, 1, 1, 9)] {
        for kind in 1..=15 {
            let most = match kind {
                2 | 4 | 5 => 0b111,
                12 => 1,
                _ => 0,
            };
            for set in (0..=16).chain([256, 65_537, 1 << 31, u32::MAX - 1, u32::MAX]) {
                let mut m = good.clone();
                put_message(&mut m, 128, [kind, 1, 1, 0, 0, set, u32::from(kind < 14)]);
                let code = if set <= most { DONE } else { BAD_MACHINE };
                assert_eq!(machine::report(Layout::of(&m), &mut m).code, code, "kind {kind}, set {set}");
            }
        }
    }
}
