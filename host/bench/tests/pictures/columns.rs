//! Directories in columns: their lanes stand together, and everything finds its lane.

use super::shapes::{groups, members, shapes, stroke, Shape};
use bench::draw::draw;
use bench::rows::{COLUMN, LEFT, PER_ROW};
use bench::story::{ends_of, story};
use bench::underway::Fate;
use copy::layout::Party;

fn drawn(input: &str) -> Vec<Shape> {
    shapes(&draw(input.as_bytes()).expect("a picture"))
}

/// Heights of the lanes that have this name before their row, one for each row.
fn lanes(all: &[Shape], name: &str) -> Vec<f64> {
    let named = all.iter().filter(|shape| shape.text == name && shape.number("x") == Some(10.0));
    named.map(|shape| shape.number("y").expect("y") - 4.0).collect()
}

/// Name, left edge, upper and lower end of each bracket.
fn brackets(all: &[Shape]) -> Vec<(String, f64, f64, f64)> {
    let read = |at: usize| {
        let parts = members(all, at);
        let number = |name| parts[0].number(name).expect(name);
        let name = parts.iter().find(|part| part.name == "text").expect("a name").text.clone();
        (name, number("x1"), number("y1"), number("y2"))
    };
    groups(all, "bracket").into_iter().map(read).collect()
}

/// In each row one bracket a column, in order, around the lanes of its directories and no others.
#[test]
fn a_bracket_holds_its_column() {
    for (nd, columns) in [(2, 1), (2, 2), (6, 2), (6, 3), (12, 3), (12, 4), (16, 1), (16, 4), (16, 16)] {
        let all = drawn(&format!("C 1 {nd} 1 0 {columns} 99 7\n{}", "T 1\n".repeat(PER_ROW)));
        let held = brackets(&all);
        let names: Vec<String> = (0..2 * columns).map(|at| format!("column {}", at % columns)).collect();
        assert_eq!(held.iter().map(|(name, ..)| name.clone()).collect::<Vec<_>>(), names, "{nd} in {columns}");
        for (at, (_, x, top, bottom)) in held.iter().enumerate() {
            let (row, column) = (at / columns, at % columns);
            let inside = |d: &usize| (top..bottom).contains(&&lanes(&all, &format!("directory {d}"))[row]);
            let expected: Vec<usize> = (1..=nd).filter(|d| (d - 1) % columns == column).collect();
            assert_eq!((1..=nd).filter(inside).collect::<Vec<_>>(), expected, "{nd} in {columns}");
            assert!(*x < 10.0, "before the names");
        }
    }
}

#[test]
fn counts_have_no_bracket() {
    assert_eq!(brackets(&drawn("S 1 5 1 0 3 3 99 7\nR 1\n")), []);
}

/// A message goes from lane to lane, whatever the order of the lanes.
#[test]
fn messages_find_their_lanes() {
    let input = "C 1 6 1 0 2 99 7\nR 1\nD 1\nD 1\nD 2\nD 1\nD 3\nD 1\nD 5\nD 1\nD 6\nD 1\n";
    let (told, all) = (story(input.as_bytes()).expect("a story"), drawn(input));
    let lane = |(party, id): (Party, u32)| {
        let name = if party == Party::Client { format!("client {id}") } else { format!("directory {id}") };
        lanes(&all, &name)[0]
    };
    let mut taken = 0;
    for (arrow, at) in told.arrows.iter().zip(groups(&all, "message")).filter(|(arrow, _)| arrow.fate == Fate::Taken) {
        let (from, to) = ends_of(&arrow.message);
        let stroke = stroke(&all, at);
        assert_eq!((stroke.number("y1"), stroke.number("y2")), (Some(lane(from)), Some(lane(to))), "{arrow:?}");
        taken += 1;
    }
    assert_eq!(taken, 10);
}

#[test]
fn a_crash_finds_its_lane() {
    let all = drawn("C 1 6 1 0 2 99 7\nX 2 5\n");
    let dashes = all.iter().find(|shape| shape.word("stroke-dasharray") == Some("5 5")).expect("a party that is down");
    assert_eq!(dashes.number("y1"), Some(lanes(&all, "directory 5")[0]));
}

/// Inside a row the lanes get another order: they are named again, and their columns with them.
#[test]
fn a_machine_inside_a_row_names_its_lanes() {
    let all = drawn("S 1 4 1 0 2 3 9 7\nR 1\nC 1 4 1 0 2 99 7\nX 2 3\n");
    let begin = LEFT + 2.5 * COLUMN;
    let again: Vec<(&str, f64)> = all
        .iter()
        .filter(|shape| shape.number("x") == Some(begin + 10.0) && shape.text.starts_with("directory"))
        .map(|shape| (shape.text.as_str(), shape.number("y").expect("y") + 4.0))
        .collect();
    let second = lanes(&all, "directory 2")[0];
    assert_eq!(again, [("directory 3", second), ("directory 2", lanes(&all, "directory 3")[0])]);
    let dashes = all.iter().find(|shape| shape.word("stroke-dasharray") == Some("5 5")).expect("a party that is down");
    assert_eq!(dashes.number("y1"), Some(second), "the crash is of the new machine");
    let held = brackets(&all);
    assert_eq!(held.len(), 2);
    assert!(held.iter().all(|(_, x, ..)| *x == begin + 4.0));
}
