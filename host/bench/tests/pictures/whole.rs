//! Pictures as wholes: well formed, on the page, and with every line of the schedule.

use super::matter::{all_sorts, answered, mixed};
use super::shapes::{groups, members, shapes, Shape};
use bench::draw::draw;
use bench::names;
use bench::rows::{text_width, WIDTH};
use std::fs::read_to_string;
use std::path::Path;

fn pictures() -> impl Iterator<Item = (Vec<u8>, Vec<Shape>)> {
    all_sorts().into_iter().map(|input| {
        let svg = draw(&input).expect("a picture");
        assert!(svg.starts_with("<svg") && svg.ends_with("</svg>\n") && !svg.contains("NaN") && !svg.contains("inf\""));
        let shapes = shapes(&svg);
        (input, shapes)
    })
}

/// Names of the heads: "12 D 3".
fn heads(all: &[Shape]) -> Vec<String> {
    let columns = groups(all, "column").into_iter();
    columns
        .flat_map(|at| members(all, at).into_iter().filter(|shape| shape.name == "text"))
        .map(|shape| shape.text.clone())
        .collect()
}

/// Each refused line of the list, with what is said of its code.
fn listed(all: &[Shape]) -> Vec<(usize, String)> {
    let entries = all.iter().filter(|shape| shape.word("xml:space").is_some());
    entries.flat_map(|shape| expanded(&shape.text)).collect()
}

fn expanded(entry: &str) -> Vec<(usize, String)> {
    let (lines, code) = entry.rsplit_once(": ").expect("a code");
    let number = |text: &str| text.parse::<usize>().expect("a line number");
    let (first, last) = match lines.strip_prefix("lines ").and_then(|range| range.split_once(" to ")) {
        Some((first, last)) => (number(first), number(last)),
        None => {
            let (line, text) = lines.strip_prefix("line ").and_then(|line| line.split_once(", \"")).expect(entry);
            assert!(text.contains('"'), "{entry}");
            (number(line), number(line))
        }
    };
    (first..=last).map(|line| (line, code.to_string())).collect()
}

#[test]
fn no_line_disappears() {
    for (input, all) in pictures() {
        let (accepted, refused) = answered(&input);
        let numbers: Vec<usize> =
            heads(&all).iter().map(|head| head.split(' ').next().unwrap_or("").parse().expect("a number")).collect();
        assert_eq!(numbers, accepted);
        let listed = listed(&all);
        assert_eq!(
            listed.iter().map(|(line, _)| *line).collect::<Vec<_>>(),
            refused.iter().map(|(line, _)| *line).collect::<Vec<_>>()
        );
        for ((_, said), (line, code)) in listed.iter().zip(refused) {
            assert!(said.split(", ").any(|one| one == names::code(code)), "line {line}: {said}, not {code}");
        }
    }
}

/// A head says what was called; a set-up's numbers stand over its operations.
#[test]
fn calls_are_written_out() {
    for (input, all) in pictures() {
        let lines: Vec<&[u8]> = bench::history::lines(&input).collect();
        for head in heads(&all) {
            let (number, text) = head.split_once(' ').expect("two parts");
            let line = String::from_utf8_lossy(lines[number.parse::<usize>().expect("a number") - 1]);
            let title = format!("The operations after line {number}, {line}, in one line:");
            assert!(text == line || text == "set-up" && all.iter().any(|shape| shape.text == title), "{head}");
        }
    }
}

#[test]
fn all_is_on_the_page() {
    for (_, all) in pictures() {
        let height = all[0].number("height").expect("a height");
        assert!(all[0].number("width").is_some_and(|width| width == WIDTH && width <= 1040.0));
        for shape in all.iter().skip(2) {
            on_the_page(shape, height);
        }
    }
}

fn on_the_page(shape: &Shape, height: f64) {
    let all = |names: [&str; 4]| names.into_iter().filter_map(|name| shape.number(name)).collect::<Vec<_>>();
    let (right, lower) = (shape.number("width").unwrap_or(0.0), shape.number("height").unwrap_or(0.0));
    assert!(all(["x", "x1", "x2", "cx"]).iter().all(|x| *x >= 0.0 && x + right <= WIDTH), "{shape:?}");
    assert!(all(["y", "y1", "y2", "cy"]).iter().all(|y| *y >= 0.0 && y + lower <= height), "{shape:?}");
    let level = shape.name == "text" && shape.word("transform").is_none() && shape.word("text-anchor").is_none();
    if level && !shape.text.starts_with("There is none") {
        let size = shape.number("font-size").expect("a size");
        assert!(shape.number("x").expect("x") + text_width(&shape.text, size) <= WIDTH, "{shape:?}");
    }
}

#[test]
fn a_schedule_that_is_all_refused_is_a_list() {
    let all = shapes(&draw(b"R 1\nR 2\nD <&>\n").expect("a list"));
    assert!(all.iter().any(|shape| shape.text == "No call of this schedule is accepted."));
    assert!(all.iter().any(|shape| shape.text == "3 lines are refused:"));
    assert_eq!(
        listed(&all),
        [(1, "17 BAD MACHINE"), (2, "17 BAD MACHINE"), (3, "18 BAD ARGUMENT")]
            .map(|(line, code)| (line, code.to_string()))
    );
    assert!(all.iter().any(|shape| shape.text == "line 3, \"D <&>\": 18 BAD ARGUMENT"));
}

#[test]
fn a_last_line_without_its_end_says_so() {
    let svg = draw(b"S 1 1 1 0 1 1 6 7\nR 1").expect("a picture");
    assert!(svg.contains("line 2, \"R 1\" without its end: 18 BAD ARGUMENT"));
    assert!(svg.contains("1 line is refused:"));
}

/// A million refused lines of changing codes are a few words.
#[test]
fn many_refused_lines_stay_small() {
    let mut input = b"S 1 1 1 0 1 1 6 7\n".to_vec();
    input.extend(b"D 3\nR 9\n<\nD 4\nR 9\n".repeat(200_000));
    let svg = draw(&input).expect("a picture");
    assert!(svg.len() < 10_000, "{}", svg.len());
    assert!(svg.contains("lines 2 to 1000001: 600000 times 18 BAD ARGUMENT, 400000 times 22 EMPTY"));
}

/// A picture grows with the lines and no faster.
#[test]
fn long_schedules_are_drawn() {
    let size = |lines| draw(&mixed(7, lines, 50)).expect("a picture").len();
    assert!(size(20_000) < 12 * size(2_000), "{} {}", size(20_000), size(2_000));
}

#[test]
fn the_example_is_drawn_anew() {
    let docs = Path::new(env!("CARGO_MANIFEST_DIR")).join("../../docs");
    let text = |name: &str| read_to_string(docs.join(name)).unwrap_or_else(|error| panic!("docs/{name}: {error}"));
    let drawn = draw(text("example.txt").as_bytes()).expect("a picture");
    assert!(drawn == text("example.svg"), "bench draw docs/example.txt docs/example.svg makes another picture");
}
