//! The twelve bench examples, on machines laid out by hand in the words.

mod common;
use common::*;
use copy::answer::*;
use copy::layout::*;
use copy::{deliver, tidy, Tag};

/// Example directory D: (3,1), {1,2}, f = 1, nr = 3.
fn with_d() -> Vec<u32> {
    let mut m = machine(2, 1, 3, 1, 1, 1, 9);
    m[DIRECTORY_BASE + 1..DIRECTORY_BASE + 4].copy_from_slice(&[3, 1, 0b011]);
    m
}

/// Delivers a message to D; its tag and set afterwards, and the kind of the reply.
fn d_takes(kind: u32, from: u32, tag: (u32, u32), set: u32) -> ((u32, u32, u32), u32) {
    let mut m = with_d();
    let number = if kind == NOTICE { 0 } else { 1 };
    put_message(&mut m, 1, [kind, from, 1, tag.0, tag.1, set, number]);
    assert_eq!(deliver(&mut m, 1, &mut [0; 16]).code, DONE);
    let row = &m[DIRECTORY_BASE..];
    ((row[1], row[2], row[3]), m[SLOT_BASE])
}

#[test]
fn tags_1_and_2() {
    assert!(Tag::new(1, 2) < Tag::new(2, 1));
    assert!(Tag::new(2, 1) < Tag::new(2, 2));
}

#[test]
fn directory_3_to_7() {
    assert_eq!(d_takes(WWRITE, 1, (3, 1), 0b110), ((3, 1, 0b111), WWRITE_OK));
    assert_eq!(d_takes(WWRITE, 1, (2, 2), 0b110), ((3, 1, 0b011), WWRITE_OK));
    assert_eq!(d_takes(WWRITE, 1, (4, 1), 0b100), ((3, 1, 0b011), WWRITE_OK));
    assert_eq!(d_takes(WWRITE, 1, (4, 1), 0b110), ((4, 1, 0b110), WWRITE_OK));
    assert_eq!(d_takes(NOTICE, 3, (4, 1), 0), ((3, 1, 0b011), 0));
    // The other side of example 7, and rwrite as wwrite.
    assert_eq!(d_takes(NOTICE, 3, (3, 1), 0), ((3, 1, 0b111), 0));
    assert_eq!(d_takes(RWRITE, 1, (4, 1), 0b110), ((4, 1, 0b110), RWRITE_OK));
}

/// What a replica with these entries answers to read: tag, page word and mark.
fn read_at(entries: &[(u32, u32, u32)], tag: (u32, u32)) -> (u32, u32, u32, u32) {
    let mut m = machine(2, 1, 1, 0, 1, 1, 9);
    put_entries(&mut m, entries);
    put_message(&mut m, 1, [READ, 1, 1, tag.0, tag.1, 0, 1]);
    assert_eq!(deliver(&mut m, 1, &mut [0; 16]).code, DONE);
    assert_eq!(m[SLOT_BASE], READ_OK);
    (m[SLOT_BASE + 3], m[SLOT_BASE + 4], m[SLOT_BASE + 8], m[SLOT_BASE + 5])
}

#[test]
fn replica_8_and_9() {
    let entries = [(SECURED, 0, 0), (HELD, 2, 1)];
    assert_eq!(read_at(&entries, (2, 1)), (2, 1, 201, EXACT));
    assert_eq!(read_at(&entries, (1, 1)), (0, 0, 0, NEWER));
    assert_eq!((EXACT, NEWER), (1, 0));
    // The first tag is there as any other, and the highest secured tag may be the one asked for.
    assert_eq!(read_at(&entries, (0, 0)), (0, 0, 0, EXACT));
    assert_eq!(read_at(&[(SECURED, 3, 1), (HELD, 4, 1)], (3, 1)), (3, 1, 301, EXACT));
    assert_eq!(read_at(&[(SECURED, 3, 1), (HELD, 4, 1)], (2, 2)), (3, 1, 301, NEWER));
}

fn tidied(entries: &[(u32, u32, u32)]) -> Vec<(u32, u32, u32)> {
    let mut m = machine(2, 1, 1, 0, 1, 1, 9);
    put_entries(&mut m, entries);
    assert_eq!(tidy(&mut m, 1).code, DONE);
    let rows = m[ENTRY_BASE..ENTRY_BASE + ENTRIES * ENTRY_ROW].chunks_exact(ENTRY_ROW);
    rows.filter(|row| row[0] != FREE).map(|row| (row[0], row[1], row[2])).collect()
}

#[test]
fn tidy_10_and_11() {
    let stays = [(SECURED, 0, 0), (HELD, 2, 1), (HELD, 3, 1)];
    assert_eq!(tidied(&stays), stays);
    assert_eq!(tidied(&[(SECURED, 0, 0), (SECURED, 2, 1), (HELD, 1, 2)]), [(SECURED, 2, 1)]);
}

/// A write whose only directory knows `number` at top 3: the code, and the tag it takes.
fn write_after(number: u32) -> (u32, u32, u32) {
    let mut m = machine(1, 1, 1, 0, 1, 1, 3);
    m[DIRECTORY_BASE + 1..DIRECTORY_BASE + 3].copy_from_slice(&[number, 1]);
    assert_eq!(copy::start_write(&mut m, 1, &page(9)).code, DONE);
    assert_eq!(deliver(&mut m, 1, &mut [0; 16]).code, DONE);
    let answer = deliver(&mut m, 1, &mut [0; 16]);
    let spent = answer.code == WRITE_SPENT;
    assert_eq!(answer.client, spent as u32);
    assert_eq!(m[SLOT_BASE], if spent { 0 } else { WRITE });
    (answer.code, m[CLIENT_BASE + 5], m[CLIENT_BASE + 6])
}

#[test]
fn spent_12() {
    assert_eq!(write_after(3), (WRITE_SPENT, 0, 0));
    assert_eq!(write_after(2), (DONE, 3, 1));
}
