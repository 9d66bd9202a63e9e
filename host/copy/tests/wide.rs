//! The machine of 5,036 words: its ranges, its places, its quorums, and the two in one schedule.

mod common;
use common::*;
use copy::answer::*;
use copy::layout::*;
use copy::wide::{crash, deliver, gossip, report, set_up, start_read, start_write, tidy};
use copy::{Answer, Numbers, Rehearsal, Tag};

const DEAD: u32 = 0xdead_beef;

fn set_up_code(n: Numbers) -> u32 {
    let mut m = vec![DEAD; WIDE_WORDS];
    let code = set_up(&mut m, n, &[0; 16]).code;
    assert_eq!(code == DONE, m != vec![DEAD; WIDE_WORDS], "{n:?}");
    code
}

/// Every nd and columns, written down and not reckoned.
#[test]
fn columns_at_set_up() {
    let divisors: [&[u32]; 18] = [
        &[],
        &[],
        &[1, 2],
        &[1, 3],
        &[1, 2, 4],
        &[1, 5],
        &[1, 2, 3, 6],
        &[1, 7],
        &[1, 2, 4, 8],
        &[1, 3, 9],
        &[1, 2, 5, 10],
        &[1, 11],
        &[1, 2, 3, 4, 6, 12],
        &[1, 13],
        &[1, 2, 7, 14],
        &[1, 3, 5, 15],
        &[1, 2, 4, 8, 16],
        &[],
    ];
    for (nd, good) in (0..).zip(divisors) {
        for columns in (0..=17).chain([32, 2_147_483_648, u32::MAX]) {
            let code = if good.contains(&columns) { DONE } else { BAD_ARGUMENT };
            assert_eq!(set_up_code(in_columns(1, nd, 1, 0, columns, 9)), code, "{nd} in {columns}");
        }
    }
    assert_eq!(set_up_code(in_columns(1, u32::MAX, 1, 0, u32::MAX, 9)), BAD_ARGUMENT);
}

#[test]
fn the_other_ranges_at_set_up() {
    let good = in_columns(8, 16, 7, 3, 4, u32::MAX);
    assert_eq!(set_up_code(good), DONE);
    let bad = [
        Numbers { nc: 0, ..good },
        Numbers { nc: 9, ..good },
        Numbers { nr: 0, f: 0, ..good },
        Numbers { nr: 8, ..good },
        Numbers { nr: 6, ..good },
        Numbers { f: 4, ..good },
        Numbers { top: 2, ..good },
        Numbers { rq: 1, ..good },
        Numbers { wq: 1, ..good },
        Numbers { rq: 4, wq: 4, ..good },
    ];
    for n in bad {
        assert_eq!(set_up_code(n), BAD_ARGUMENT, "{n:?}");
    }
}

/// Columns are none of the base machine's numbers, at set-up and in its word 7.
#[test]
fn columns_in_the_base_machine() {
    let good = numbers(1, 4, 1, 0, 2, 3, 9);
    for n in [Numbers { columns: 1, ..good }, Numbers { columns: 2, ..good }, in_columns(1, 4, 1, 0, 2, 9)] {
        let mut m = vec![DEAD; WORDS];
        assert_eq!(copy::set_up(&mut m, n, &[0; 16]).code, BAD_ARGUMENT, "{n:?}");
        assert_eq!(m, vec![DEAD; WORDS]);
    }
    for columns in [1, 2, 4, u32::MAX] {
        let mut m = machine(1, 4, 1, 0, 2, 3, 9);
        m[7] = columns;
        assert_eq!(copy::report(&mut m).code, BAD_MACHINE, "{columns}");
    }
}

/// 5,036 words, and none behind them is written; 5,035 are too few, and base's 4,992 are.
#[test]
fn words_of_a_machine() {
    let n = in_columns(1, 2, 1, 0, 2, 9);
    for (length, code) in [(WORDS, SIZE), (5035, SIZE), (5036, DONE), (5039, DONE)] {
        let mut m = vec![7; length];
        assert_eq!(set_up(&mut m, n, &[0; 16]).code, code, "{length}");
        assert_eq!(start_write(&mut m, 1, &page(5)).code, code, "{length}");
        for _ in 0..5 {
            assert_eq!(deliver(&mut m, 1, &mut [0; 16]).code, code, "{length}");
        }
        assert_eq!(tidy(&mut m, 1).code, code, "{length}");
        assert_eq!(report(&mut m).code, code, "{length}");
        let kept = if code == SIZE { 0 } else { 5036 };
        assert!(m[kept..].iter().all(|&word| word == 7), "{length}");
    }
}

/// Where everything stands after a set-up, by the numbers of the paper.
#[test]
fn places_after_set_up() {
    let mut m = vec![DEAD; WIDE_WORDS];
    assert_eq!(set_up(&mut m, in_columns(2, 12, 3, 1, 4, 9), &page(77)).code, DONE);
    let mut expected = vec![0; 5036];
    expected[..8].copy_from_slice(&[2, 12, 3, 1, 0, 0, 9, 4]);
    for directory in 0..12 {
        expected[208 + 4 * directory + 3] = 0b111;
    }
    for replica in 0..3 {
        expected[284 + 240 * replica] = SECURED;
        expected[284 + 240 * replica + 4] = 77;
    }
    assert_eq!(m, expected);
    assert_eq!(crash(&mut m, 3, 3).code, DONE);
    assert_eq!(crash(&mut m, 2, 12).code, DONE);
    assert_eq!(gossip(&mut m, 1, 2).code, DONE);
    (expected[272 + 2], expected[208 + 44]) = (1, 1);
    expected[1964..1972].copy_from_slice(&[GOSSIP, 1, 2, 0, 0, 0, 0, 0]);
    expected[1972] = 77;
    assert_eq!(m, expected);
}

fn code_with(at: usize, word: u32) -> u32 {
    let mut m = wide_machine(2, 12, 3, 1, 4, 9);
    m[at] = word;
    report(&mut m).code
}

#[test]
fn every_unused_word_must_be_zero() {
    let m = wide_machine(2, 12, 3, 1, 4, 9);
    for (at, &word) in m.iter().enumerate().skip(8) {
        let client = (at == 16 || at == 18) || (at == 40 || at == 42);
        let directory = (208..256).contains(&at) && at % 4 == 0;
        let down = (272..275).contains(&at);
        let page = (284..1004).contains(&at) && (4..20).contains(&((at - 284) % 240));
        if word == 0 {
            let good = client || directory || down || page;
            assert_eq!(code_with(at, 1) == DONE, good, "word {at}");
        }
    }
}

#[test]
fn words_out_of_range() {
    let bad = [
        (1, 13),
        (1, 0),
        (4, 1),
        (5, 1),
        (7, 0),
        (7, 5),
        (7, 24),
        (16 + 1, 7),
        (208, 2),
        (208 + 45, 1),
        (208 + 47, 8),
        (256, 1),
        (272, 2),
        (275, 1),
        (284, 3),
        (284, 1),
        (1964, 16),
    ];
    for (at, word) in bad {
        assert_eq!(code_with(at, word), BAD_MACHINE, "word {at} = {word}");
    }
    // The columns that divide 12 are all good.
    for (at, word) in [(7, 1), (7, 2), (7, 3), (7, 6), (7, 12), (208 + 44, 1), (274, 1)] {
        assert_eq!(code_with(at, word), DONE, "word {at} = {word}");
    }
    assert_eq!(report(&mut vec![0; WIDE_WORDS]).code, BAD_MACHINE);
}

/// Directory 12 is the last that may send, be sent to or answer.
#[test]
fn directories_in_messages_and_sets() {
    let code = |row| {
        let mut m = wide_machine(2, 12, 3, 1, 4, 9);
        put_message(&mut m, 128, row);
        report(&mut m).code
    };
    assert_eq!(code([RREAD, 1, 12, 0, 0, 0, 1]), DONE);
    assert_eq!(code([RREAD, 1, 13, 0, 0, 0, 1]), BAD_MACHINE);
    assert_eq!(code([RREAD_OK, 12, 1, 0, 0, 7, 1]), DONE);
    assert_eq!(code([RREAD_OK, 13, 1, 0, 0, 7, 1]), BAD_MACHINE);
    for (answered, good) in [(1 << 11, true), (0xfff, true), (1 << 12, false), (1 << 16, false), (1 << 31, false)] {
        let mut m = wide_machine(2, 12, 3, 1, 4, 9);
        m[CLIENT_BASE + 1..CLIENT_BASE + 4].copy_from_slice(&[RDR, 1, answered]);
        assert_eq!(report(&mut m).code == DONE, good, "{answered:b}");
    }
}

/// Both tests on every set of directories, against the sentence read directory by directory.
#[test]
fn quorums_of_every_set() {
    for nd in 2..=16u32 {
        for columns in (1..=nd).filter(|columns| nd % columns == 0) {
            let n = in_columns(1, nd, 1, 0, columns, 9);
            for set in 0..1u32 << nd {
                let mut missed = [false; 16];
                let mut met = [false; 16];
                for d in 1..=nd {
                    let column = ((d - 1) % columns) as usize;
                    let member = set >> (d - 1) & 1 == 1;
                    missed[column] |= !member;
                    met[column] |= member;
                }
                let whole = missed[..columns as usize].contains(&false);
                let every = !met[..columns as usize].contains(&false);
                assert_eq!(n.enough_to_read(set), whole, "{nd} in {columns}: {set:b}");
                assert_eq!(n.enough_to_write(set), every, "{nd} in {columns}: {set:b}");
            }
        }
    }
}

#[test]
fn quorums_by_counts() {
    let n = numbers(1, 5, 1, 0, 2, 4, 9);
    for set in 0..32u32 {
        let members = (0..5).filter(|d| set >> d & 1 == 1).count();
        assert_eq!((n.enough_to_read(set), n.enough_to_write(set)), (members >= 2, members >= 4), "{set:b}");
    }
}

/// The slot with kind, from and to.
fn find(m: &[u32], ends: [u32; 3]) -> u32 {
    (1..=SLOTS as u32).find(|&slot| m[slot_at(m, slot)..][..3] == ends).expect("the message waits")
}

/// Client 1's request goes to `id`, and its reply comes back.
fn round(m: &mut [u32], kind: u32, reply: u32, id: u32, page: &mut [u32]) -> Answer {
    let asked = find(m, [kind, 1, id]);
    assert_eq!(deliver(m, asked, page).code, DONE);
    let replied = find(m, [reply, id, 1]);
    deliver(m, replied, page)
}

fn phase(m: &[u32]) -> u32 {
    m[CLIENT_BASE + 1]
}

/// 12 directories in 3 columns: 2, 5, 8 and 11 are one column.
#[test]
fn a_read_and_a_write_with_twelve_directories() {
    let mut m = wide_machine(1, 12, 1, 0, 3, 99);
    let page = &mut [0; 16];
    assert_eq!(start_write(&mut m, 1, &common::page(5)).code, DONE);
    // Nine directories, and of each column one is missing.
    for id in [1, 4, 7, 3, 6, 9, 2, 5, 8] {
        assert_eq!(round(&mut m, WREAD, WREAD_OK, id, page).code, DONE);
        assert_eq!(phase(&m), WDR, "{id}");
    }
    assert_eq!(round(&mut m, WREAD, WREAD_OK, 11, page).code, DONE);
    assert_eq!(phase(&m), WRW);
    assert_eq!(round(&mut m, WRITE, WRITE_OK, 1, page).code, DONE);
    assert_eq!(phase(&m), WDW);
    // Two whole columns do not meet the third.
    for id in [1, 4, 7, 10, 2, 5, 8, 11] {
        assert_eq!(round(&mut m, WWRITE, WWRITE_OK, id, page).code, DONE);
        assert_eq!(phase(&m), WDW, "{id}");
    }
    let ended = Answer { client: 1, tag: Tag::new(1, 1), ..Answer::bare(WRITE_ENDED) };
    assert_eq!(round(&mut m, WWRITE, WWRITE_OK, 12, page), ended);

    assert_eq!(start_read(&mut m, 1).code, DONE);
    // One column alone, of which only 12 knows the tag.
    for id in [3, 6, 9] {
        assert_eq!(round(&mut m, RREAD, RREAD_OK, id, page).code, DONE);
        assert_eq!(phase(&m), RDR, "{id}");
    }
    assert_eq!(round(&mut m, RREAD, RREAD_OK, 12, page).code, DONE);
    assert_eq!(phase(&m), RDW);
    assert_eq!(m[CLIENT_BASE + 4..CLIENT_BASE + 7], [0b1, 1, 1]);
    for id in [10, 11] {
        assert_eq!(round(&mut m, RWRITE, RWRITE_OK, id, page).code, DONE);
        assert_eq!(phase(&m), RDW, "{id}");
    }
    assert_eq!(round(&mut m, RWRITE, RWRITE_OK, 12, page).code, DONE);
    assert_eq!(phase(&m), RRR);
    let ended = Answer { code: READ_ENDED, client: 1, tag: Tag::new(1, 1), mark: EXACT };
    assert_eq!(round(&mut m, READ, READ_OK, 1, page), ended);
    assert_eq!(*page, common::page(5));
}

/// Code of each line.
fn codes(machine: &mut Rehearsal, lines: &[&str]) -> Vec<u32> {
    lines.iter().map(|line| machine.step(line.as_bytes()).answer.code).collect()
}

#[test]
fn lines_of_columns() {
    let machine = &mut Rehearsal::new();
    // 7 numbers and no other count; out of range asks the machine.
    let malformed = ["C 1 2 1 0 1 6", "C 1 2 1 0 1 6 7 8", "C 1 2 1 0 1 06 7", "c 1 2 1 0 1 6 7", "C  1 2 1 0 1 6 7"];
    assert_eq!(codes(machine, &malformed), [BAD_ARGUMENT; 5]);
    let refused = ["C 1 1 1 0 1 6 7", "C 1 17 1 0 1 6 7", "C 1 4 1 0 3 6 7", "C 1 4 1 0 0 6 7", "C 1 4 1 0 5 6 7"];
    assert_eq!(codes(machine, &refused), [BAD_ARGUMENT; 5]);
    assert_eq!(machine.words(), vec![0; WORDS]);
    assert_eq!(codes(machine, &["R 1", "C 1 2 1 0 1 6 7", "R 1"]), [BAD_MACHINE, DONE, DONE]);
    assert_eq!(machine.words().len(), WIDE_WORDS);
}

#[test]
fn a_refused_set_up_leaves_the_machine_in_force() {
    let machine = &mut Rehearsal::new();
    assert_eq!(codes(machine, &["S 1 2 2 0 1 2 9 7", "R 1"]), [DONE, DONE]);
    let base = machine.words().to_vec();
    // A wide set-up that is refused: the base machine answers on.
    assert_eq!(codes(machine, &["C 2 4 1 0 3 9 8", "R 1"]), [BAD_ARGUMENT, BUSY]);
    assert_eq!(machine.words(), base);
    assert_eq!(codes(machine, &["C 2 4 1 0 2 9 8", "R 1", "R 2", "D 8"]), [DONE, DONE, DONE, DONE]);
    let wide = machine.words().to_vec();
    assert_eq!(wide.len(), WIDE_WORDS);
    // A base set-up that is refused: the wide machine answers on.
    assert_eq!(codes(machine, &["S 1 2 2 0 1 1 9 7", "R 2", "D 9"]), [BAD_ARGUMENT, BUSY, EMPTY]);
    assert_eq!(machine.words(), wide);
    assert_eq!(codes(machine, &["S 1 2 2 0 1 2 9 7", "R 1", "R 1"]), [DONE, DONE, BUSY]);
    // Each set-up begins anew, also where its array has been in use.
    assert_eq!(machine.words(), base);
    assert_eq!(codes(machine, &["C 2 4 1 0 2 9 8", "R 1", "R 2", "D 8"]), [DONE, DONE, DONE, DONE]);
    assert_eq!(machine.words(), wide);
}
