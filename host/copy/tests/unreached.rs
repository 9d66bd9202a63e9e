//! Good machines that no run reaches, and words that no printed line shows.

mod common;
use common::*;
use copy::answer::*;
use copy::layout::*;
use copy::{deliver, machine as calls, start_write, Answer, Tag};

/// Client 1 as phase, number, answered set, replica set and tag.
fn put_client(m: &mut [u32], row: [u32; 6]) {
    m[CLIENT_BASE + 1..CLIENT_BASE + 7].copy_from_slice(&row);
}

fn deliver_first(m: &mut [u32]) -> Answer {
    deliver(m, 1, &mut [0; 16])
}

fn slot(m: &[u32], slot: u32) -> &[u32] {
    &m[slot_at(m, slot)..][..7]
}

fn waiting(m: &mut [u32]) -> u32 {
    copy::report(m).waiting
}

#[test]
fn secure_keeps_the_message_number() {
    let mut m = machine(1, 1, 1, 0, 1, 1, 9);
    assert_eq!(start_write(&mut m, 1, &page(5)).code, DONE);
    for _ in 0..5 {
        assert_eq!(deliver_first(&mut m).code, DONE);
    }
    assert_eq!(deliver_first(&mut m), Answer { client: 1, tag: Tag::new(1, 1), ..Answer::bare(WRITE_ENDED) });
    assert_eq!(slot(&m, 1), [SECURE, 1, 1, 1, 1, 0, 3]);
    assert_eq!(m[CLIENT_BASE..CLIENT_BASE + 24], [&[0, 0, 3][..], &[0; 21]].concat());
    assert_eq!(deliver_first(&mut m).code, DONE);
    assert_eq!(m[ENTRY_BASE + ENTRY_ROW..ENTRY_BASE + ENTRY_ROW + 5], [SECURED, 1, 1, 0, 5]);
}

#[test]
fn an_empty_set_sends_nothing() {
    let mut m = machine(1, 1, 1, 0, 1, 1, 9);
    put_client(&mut m, [RDW, 2, 0, 0, 4, 1]);
    put_message(&mut m, 1, [RWRITE_OK, 1, 1, 0, 0, 0, 2]);
    assert_eq!(deliver_first(&mut m).code, DONE);
    assert_eq!(waiting(&mut m), 0);
    assert_eq!(m[CLIENT_BASE..CLIENT_BASE + 7], [0, RRR, 3, 0, 0, 4, 1]);
}

#[test]
fn a_read_ends_at_any_replica() {
    let mut m = machine(1, 1, 3, 1, 1, 1, 9);
    put_client(&mut m, [RRR, 3, 0, 0b001, 4, 1]);
    put_message(&mut m, 1, [READ_OK, 3, 1, 2, 1, 0, 3]);
    m[SLOT_BASE + 8] = 77;
    let mut page = [1; 16];
    let ended = Answer { code: READ_ENDED, client: 1, tag: Tag::new(2, 1), mark: NEWER };
    assert_eq!(deliver(&mut m, 1, &mut page), ended);
    assert_eq!(page, common::page(77));
}

/// The client asked for (4,1): the reply's mark is repeated, whatever its tag.
#[test]
fn the_mark_is_the_replys() {
    for blank in [machine(1, 1, 3, 1, 1, 1, 9), wide_machine(1, 2, 3, 1, 1, 9)] {
        for (tag, mark) in [(2, EXACT), (2, NEWER), (4, EXACT), (4, NEWER), (5, EXACT), (5, NEWER)] {
            let mut m = blank.clone();
            put_client(&mut m, [RRR, 3, 0, 0b001, 4, 1]);
            put_message(&mut m, 1, [READ_OK, 1, 1, tag, 1, mark, 3]);
            let answer = |m: &mut [u32]| calls::deliver(Layout::of(m), m, 1, &mut [0; 16]);
            // An answer that ends no read has none.
            let (mut down, mut other) = (m.clone(), m.clone());
            down[CLIENT_BASE] = 1;
            other[CLIENT_BASE + 2] = 4;
            assert_eq!(answer(&mut down), Answer::bare(DROPPED));
            assert_eq!(answer(&mut other), Answer::bare(STALE));
            let ended = Answer { code: READ_ENDED, client: 1, tag: Tag::new(tag, 1), mark };
            assert_eq!(answer(&mut m), ended);
        }
    }
}

#[test]
fn more_answers_than_the_count() {
    let mut m = machine(1, 3, 1, 0, 2, 2, 9);
    put_client(&mut m, [RDR, 1, 0b011, 0b1, 2, 1]);
    put_message(&mut m, 1, [RREAD_OK, 3, 1, 1, 1, 0, 1]);
    assert_eq!(deliver_first(&mut m).code, DONE);
    assert_eq!(slot(&m, 3), [RWRITE, 1, 3, 2, 1, 0b1, 2]);
    assert_eq!(m[CLIENT_BASE..CLIENT_BASE + 7], [0, RDW, 2, 0, 0b1, 2, 1]);
}

#[test]
fn stale_changes_nothing_else() {
    // Wrong kind, another number, already answered.
    for message in [[RWRITE_OK, 2, 1, 0, 0, 0, 1], [RREAD_OK, 2, 1, 3, 1, 0b1, 2], [RREAD_OK, 1, 1, 3, 1, 0b1, 1]] {
        let mut m = machine(1, 3, 1, 0, 2, 2, 9);
        put_client(&mut m, [RDR, 1, 0b001, 0b1, 2, 1]);
        let empty = m.clone();
        put_message(&mut m, 1, message);
        assert_eq!(deliver_first(&mut m), Answer::bare(STALE));
        assert_eq!(m, empty);
    }
}

#[test]
fn an_equal_tag_joins_a_small_set() {
    let mut m = machine(1, 1, 3, 1, 1, 1, 9);
    m[DIRECTORY_BASE + 1..DIRECTORY_BASE + 4].copy_from_slice(&[3, 1, 0b010]);
    put_message(&mut m, 1, [WWRITE, 1, 1, 3, 1, 0b100, 1]);
    assert_eq!(deliver_first(&mut m).code, DONE);
    assert_eq!(m[DIRECTORY_BASE + 3], 0b110);
}

#[test]
fn gossip_to_itself_and_other_pages() {
    let mut m = machine(1, 1, 1, 0, 1, 1, 9);
    put_entries(&mut m, &[(SECURED, 0, 0), (HELD, 2, 1)]);
    put_message(&mut m, 1, [GOSSIP, 1, 1, 2, 1, 0, 0]);
    m[SLOT_BASE + 8] = 5;
    assert_eq!(deliver_first(&mut m).code, DONE);
    // The entry is secured with the page it had.
    assert_eq!(m[ENTRY_BASE + ENTRY_ROW..ENTRY_BASE + ENTRY_ROW + 5], [SECURED, 2, 1, 0, 201]);
    assert_eq!(slot(&m, 1), [NOTICE, 1, 1, 2, 1, 0, 0]);
}

#[test]
fn a_write_that_is_another_clients() {
    let mut m = machine(2, 1, 3, 1, 1, 1, 9);
    put_client(&mut m, [WRW, 2, 0b100, 0, 0, 0]);
    put_message(&mut m, 1, [WRITE_OK, 1, 1, 0, 0, 0, 2]);
    assert_eq!(deliver_first(&mut m).code, DONE);
    assert_eq!(slot(&m, 1), [WWRITE, 1, 1, 0, 0, 0b101, 3]);
    m[CLIENT_BASE + 5..CLIENT_BASE + 7].copy_from_slice(&[4, 2]);
    assert_eq!(deliver_first(&mut m).code, DONE);
    assert_eq!(deliver_first(&mut m), Answer { client: 1, tag: Tag::new(4, 2), ..Answer::bare(WRITE_ENDED) });
    assert_eq!((slot(&m, 1), slot(&m, 2)[2]), (&[SECURE, 1, 1, 4, 2, 0, 3][..], 3));
}
