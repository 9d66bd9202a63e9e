//! A machine in columns, told.

use super::{means, told};
use bench::columns::{column_of, party_at, place_of};
use bench::tell::machine_after;
use bench::words::{machine, rows};
use copy::layout::Party;
use copy::{Layout, Numbers, Rehearsal};

const NEW: &str = "0 DONE: a new machine:";
const ONE_WHOLE: &str = "read quorum one whole column, write quorum one of each column";

#[test]
fn a_new_machine_in_columns() {
    means(
        "C 1 12 3 1 3 99 7\n",
        &format!("{NEW} 1 client, 12 directories in 3 columns, 3 replicas; f 1, {ONE_WHOLE}, top 99; first page 7"),
    );
    means(
        "C 2 2 1 0 1 99 7\n",
        &format!("{NEW} 2 clients, 2 directories in 1 column, 1 replica; f 0, {ONE_WHOLE}, top 99; first page 7"),
    );
}

/// What the client's row is told to wait for, after each line that changes it.
fn waits(input: &str) -> Vec<String> {
    let details = told(input.as_bytes()).into_iter().flat_map(|line| line.details);
    let rows = details.filter(|detail| detail.starts_with("changed: client 1:"));
    rows.map(|row| {
        row.split("; ")
            .filter(|part| part.contains("answered") || part.contains("waits"))
            .collect::<Vec<_>>()
            .join("; ")
    })
    .collect()
}

#[test]
fn what_a_client_waits_for_in_columns() {
    let read = "C 1 6 1 0 3 99 7\nR 1\nD 1\nD 1\nD 2\nD 1\nD 4\nD 1\nD 1\nD 1\nD 7\nD 1\nD 9\nD 1\n";
    assert_eq!(
        waits(read),
        [
            "waits for one whole column",
            "answered: {1}; waits for one whole column: column 0 lacks directory 4",
            "answered: {1, 2}; waits for one whole column: column 0 lacks directory 4, column 1 lacks directory 5",
            "waits for one of each of columns 0, 1 and 2",
            "answered: {1}; waits for one of each of columns 1 and 2",
            "answered: {1, 4}; waits for one of each of columns 1 and 2",
            "answered: {1, 4, 6}; waits for one of column 1",
        ]
    );
}

#[test]
fn the_machine_in_columns_after_a_line() {
    let expected = "\
3: X 2 4 -> 0 DONE: directory 4 goes down
    changed: directory 4: down; column 1; tag (0,0) at replica 1
machine: 1 client, 4 directories in 2 columns, 1 replica; f 0, read quorum one whole column, write quorum one of each column, top 99
up: everybody but directory 4
client 1: writes page 9, phase 4, asking directories for the newest tag, message number 1; waits for one whole column; has heard (0,0)
directory 1: column 0; tag (0,0) at replica 1
directory 3: column 0; tag (0,0) at replica 1
directory 2: column 1; tag (0,0) at replica 1
directory 4: down; column 1; tag (0,0) at replica 1
replica 1: (0,0) page 7 secured; 11 of 12 entries free
mail: 4 of 128 slots
slot 1: wread from client 1 to directory 1, number 1
slot 2: wread from client 1 to directory 2, number 1
slot 3: wread from client 1 to directory 3, number 1
slot 4: wread from client 1 to directory 4, number 1
newest page: 7, tag (0,0), the first page: secured at replica 1; named by directories 1, 2, 3 and 4
";
    assert_eq!(machine_after(b"C 1 4 1 0 2 99 7\nW 1 9\nX 2 4\n", 3).as_deref(), Ok(expected));
}

/// The words are those of the machine in force: a refused set-up changes nothing.
#[test]
fn the_machine_in_force() {
    let mut rehearsal = Rehearsal::new();
    let mut first_words = |line: &str| {
        rehearsal.step(line.as_bytes());
        machine(rehearsal.words()).first().map(|sentence| sentence.text.clone())
    };
    let base = Some("1 client, 3 directories, 1 replica; f 0, read quorum 2, write quorum 2, top 9".to_string());
    let wide = Some(format!("1 client, 6 directories in 2 columns, 1 replica; f 0, {ONE_WHOLE}, top 9"));
    let lines = [
        ("C 1 6 1 0 4 9 7", &None),
        ("S 1 3 1 0 2 2 9 7", &base),
        ("C 1 6 1 0 4 9 7", &base),
        ("C 1 6 1 0 2 9 7", &wide),
        ("S 1 3 1 0 1 2 9 7", &wide),
        ("R 1", &wide),
        ("S 1 3 1 0 2 2 9 7", &base),
    ];
    for (at, (line, words)) in lines.into_iter().enumerate() {
        assert_eq!(first_words(line), *words, "line {}, {line}", at + 1);
    }
}

/// Directories stand column by column, each once, and in rising order in each.
#[test]
fn directories_stand_by_column() {
    for (nd, columns) in (2..=16).flat_map(|nd| (0..=nd).map(move |columns| (nd, columns))) {
        let n = Numbers { nc: 1, nd, nr: 1, f: 0, rq: 0, wq: 0, top: 3, columns };
        let shown: Vec<u32> = rows(&n).filter(|(party, _)| *party == Party::Directory).map(|(_, id)| id).collect();
        let mut by_column: Vec<u32> = (1..=nd).collect();
        if columns == 0 {
            assert_eq!(shown, by_column);
        } else if n.in_range(Layout::Wide) {
            by_column.sort_by_key(|&id| (column_of(&n, id), id));
            assert_eq!(shown, by_column, "{nd} in {columns}");
            assert!((1..=nd).all(|id| party_at(&n, Party::Directory, place_of(&n, Party::Directory, id)) == id));
        }
    }
}
