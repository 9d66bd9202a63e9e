//! A stroke that is cut into rows goes on where it was cut.

use super::matter::all_sorts;
use super::shapes::{groups, members, shapes, Shape};
use bench::draw::draw;
use bench::rows::{moment, Piece, Rows, COLUMN, LEFT, PER_ROW};
use bench::story::story;
use copy::layout::Party;

const EDGE: f64 = LEFT + PER_ROW as f64 * COLUMN;

fn rows() -> Rows {
    Rows { columns: 100, clients: 2, directories: 3, replicas: 3, top: 34.0, heads: 60.0 }
}

/// Where a piece stands in its row: the height above its first lane.
fn level(rows: &Rows, piece: &Piece, y: f64) -> f64 {
    y - rows.place(piece.row, (0.0, 0.0)).1
}

#[test]
fn strokes_go_on_in_the_next_row() {
    let rows = rows();
    let ends = (rows.height_of(Party::Client, 1), rows.height_of(Party::Replica, 3));
    let pieces = rows.pieces((moment(3), ends.0), (moment(95), ends.1));
    assert_eq!(pieces.iter().map(|piece| piece.row).collect::<Vec<_>>(), [0, 1, 2, 3]);
    for pair in pieces.windows(2) {
        assert_eq!((pair[0].to.0, pair[1].from.0), (EDGE, LEFT));
        assert!((level(&rows, &pair[0], pair[0].to.1) - level(&rows, &pair[1], pair[1].from.1)).abs() < 1e-9);
    }
    let slopes = pieces.iter().map(|piece| (piece.to.1 - piece.from.1) / (piece.to.0 - piece.from.0));
    let straight = (ends.1 - ends.0) / (92.0 * COLUMN);
    slopes.for_each(|slope| assert!((slope - straight).abs() < 1e-9));
    assert_eq!((pieces[0].from.0, pieces[3].to.0), (LEFT + 3.5 * COLUMN, LEFT + 5.5 * COLUMN));
}

#[test]
fn a_stroke_that_ends_at_the_edge_has_no_piece_behind_it() {
    let pieces = rows().pieces((moment(29), 10.0), (30.0, 10.0));
    assert_eq!(
        pieces.iter().map(|piece| (piece.row, piece.from.0, piece.to.0)).collect::<Vec<_>>(),
        [(0, EDGE - 15.0, EDGE)]
    );
}

#[test]
fn one_row_is_one_piece() {
    let pieces = rows().pieces((moment(30), 0.0), (moment(59), 7.0));
    assert_eq!(pieces.len(), 1);
    assert_eq!((pieces[0].from.0, pieces[0].to.0), (LEFT + 15.0, EDGE - 15.0));
}

/// No row has more columns than fit, and rows stand under each other.
#[test]
fn rows_hold_what_fits() {
    for input in all_sorts() {
        let all = shapes(&draw(&input).expect("a picture"));
        let mut lowest = 0.0;
        for row in groups(&all, "row") {
            let guides: Vec<_> = members(&all, row).into_iter().filter(|shape| shape.is("guide")).collect();
            assert!((1..=PER_ROW).contains(&guides.len()));
            let top = guides[0].number("y1").expect("y1");
            assert!(top > lowest && guides.iter().all(|guide| guide.number("y1") == Some(top)));
            lowest = guides[0].number("y2").expect("y2");
        }
    }
}

/// Bars and the white dashes of a downed party last as long as they should, row by row.
fn spans(input: &[u8], of: fn(&Shape) -> Option<(f64, f64)>) -> Vec<(f64, f64)> {
    shapes(&draw(input).expect("a picture")).iter().skip(2).filter_map(of).collect()
}

fn bar(shape: &Shape) -> Option<(f64, f64)> {
    let is_bar = shape.name == "rect" && shape.number("height") == Some(20.0);
    is_bar.then(|| (shape.number("x").unwrap_or(0.0), shape.number("width").unwrap_or(0.0)))
}

fn dashes(shape: &Shape) -> Option<(f64, f64)> {
    let is_down = shape.word("stroke-dasharray") == Some("5 5");
    is_down.then(|| (shape.number("x1").unwrap_or(0.0), shape.number("x2").unwrap_or(0.0)))
}

/// A machine of five columns and fifteen of two; refused lines have no column.
fn two_machines() -> Vec<u8> {
    let mut input = b"S 1 1 1 0 1 1 9 7\nR 9\nR 1\nX 3 1\nR 1\nX 2 1\nD 1\n".to_vec();
    input.extend(b"S 2 1 1 0 1 1 9 7\nR 2\n".repeat(15));
    input
}

#[test]
fn an_open_bar_ends_with_its_machine() {
    let all = spans(&two_machines(), bar);
    assert_eq!(all[0], (LEFT + 1.5 * COLUMN, 3.5 * COLUMN));
    assert_eq!(all[1], (LEFT + 6.5 * COLUMN, 0.5 * COLUMN));
    assert_eq!(all.len(), 16);
}

#[test]
fn a_downed_party_is_down_until_its_machine_ends() {
    let end = LEFT + 5.0 * COLUMN;
    assert_eq!(spans(&two_machines(), dashes), [(LEFT + 2.5 * COLUMN, end), (LEFT + 3.5 * COLUMN, end)]);
    let mut long = b"S 1 1 1 0 1 1 9 7\nX 1 1\n".to_vec();
    long.extend(b"T 1\n".repeat(60));
    let expected = [(LEFT + 1.5 * COLUMN, EDGE), (LEFT, EDGE), (LEFT, LEFT + 2.0 * COLUMN)];
    assert_eq!(spans(&long, dashes), expected);
}

#[test]
fn a_refused_line_stands_at_the_column_before_it() {
    let told = story(b"R 1\nS 1 1 1 0 1 1 9 7\nR 9\nR 8\nR 1\nR 1\n").expect("a story");
    let columns: Vec<Option<usize>> = (1..=6).map(|line| told.column(line)).collect();
    assert_eq!(columns, [None, Some(0), Some(0), Some(0), Some(1), Some(1)]);
}
