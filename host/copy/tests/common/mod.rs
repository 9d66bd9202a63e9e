//! Machines laid out by hand.
#![allow(dead_code)]

use copy::layout::*;
use copy::{set_up, wide, Numbers};

pub fn page(word: u32) -> [u32; 16] {
    let mut page = [0; 16];
    page[0] = word;
    page
}

pub fn numbers(nc: u32, nd: u32, nr: u32, f: u32, rq: u32, wq: u32, top: u32) -> Numbers {
    Numbers { nc, nd, nr, f, rq, wq, top, columns: 0 }
}

pub fn machine(nc: u32, nd: u32, nr: u32, f: u32, rq: u32, wq: u32, top: u32) -> Vec<u32> {
    let mut m = vec![0xdead_beef; WORDS];
    assert_eq!(set_up(&mut m, numbers(nc, nd, nr, f, rq, wq, top), &[0; 16]).code, 0);
    m
}

pub fn in_columns(nc: u32, nd: u32, nr: u32, f: u32, columns: u32, top: u32) -> Numbers {
    Numbers { nc, nd, nr, f, rq: 0, wq: 0, top, columns }
}

pub fn wide_machine(nc: u32, nd: u32, nr: u32, f: u32, columns: u32, top: u32) -> Vec<u32> {
    let mut m = vec![0xdead_beef; WIDE_WORDS];
    assert_eq!(wide::set_up(&mut m, in_columns(nc, nd, nr, f, columns, top), &[0; 16]).code, 0);
    m
}

/// Kind, from, to, tag number, tag client, set, message number into a slot.
pub fn put_message(m: &mut [u32], slot: u32, row: [u32; 7]) {
    let at = slot_at(m, slot);
    m[at..at + 7].copy_from_slice(&row);
}

/// State and tag of each entry of replica 1; the page tells the tag.
pub fn put_entries(m: &mut [u32], entries: &[(u32, u32, u32)]) {
    m[ENTRY_BASE..ENTRY_BASE + ENTRIES * ENTRY_ROW].fill(0);
    for (entry, &(state, number, client)) in entries.iter().enumerate() {
        let row = &mut m[ENTRY_BASE + entry * ENTRY_ROW..];
        row[..5].copy_from_slice(&[state, number, client, 0, 100 * number + client]);
    }
}
