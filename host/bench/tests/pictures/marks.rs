//! A read that got a newer tag than it asked for says so, with and without the mouse; no other does.

use super::matter::all_sorts;
use super::newer::{exact, newer};
use super::shapes::{groups, members, shapes, Shape};
use bench::compare::copy_output;
use bench::draw::draw;
use bench::history::{lines, raw_lines, Printed};
use bench::page::page;
use bench::rows::PER_ROW;
use bench::story::story;
use bench::tell::Teller;
use bench::words::sent;
use copy::answer::{NEWER, READ_ENDED};
use copy::layout::bit;

fn drawn(input: &str) -> Vec<Shape> {
    shapes(&draw(input.as_bytes()).expect("a picture"))
}

/// The texts of each group of a class: its title, and what can be seen.
fn texts(all: &[Shape], class: &str) -> Vec<Vec<String>> {
    let said = |at| members(all, at).into_iter().filter(|shape| !shape.text.is_empty());
    groups(all, class).into_iter().map(|at| said(at).map(|shape| shape.text.clone()).collect()).collect()
}

/// What `tell` says of the last line, behind its code.
fn last_meaning(input: &str) -> String {
    let mut teller = Teller::new();
    let last = raw_lines(input.as_bytes()).map(|raw| teller.take(raw)).last().expect("a line");
    last.meaning.split_once(": ").expect("a code").1.to_string()
}

/// The bar, and the box in the line of the operations.
#[test]
fn a_newer_read_says_so() {
    let said = last_meaning(&newer());
    assert!(said.contains("newer than the (0,0)"), "{said}");
    assert_eq!(
        texts(&drawn(&newer()), "newer"),
        [
            vec![said.as_str(), "read: 9, newer than asked"],
            vec![said.as_str(), "read: 9", "client 2  (1,1)", "newer than asked"],
        ]
    );
}

#[test]
fn an_exact_read_says_nothing() {
    let all = drawn(&exact());
    assert_eq!(texts(&all, "newer"), [[""; 0]; 0]);
    assert_eq!(all.iter().filter(|shape| shape.text == "read: 7").count(), 2, "bar and box");
    assert!(!all.iter().any(|shape| shape.text.contains("newer")));
}

/// Each row has a piece of the bar, and every piece its label.
#[test]
fn a_newer_read_says_so_in_each_row() {
    let long = newer().replace("T 1\n", &"T 1\n".repeat(PER_ROW));
    let bar = texts(&drawn(&long), "newer").swap_remove(0);
    assert_eq!(bar[1..], ["read: 9, newer than asked"; 2]);
}

/// As many as were printed, in schedules of all sorts.
#[test]
fn newer_reads_are_counted() {
    let mut count = 0;
    for input in all_sorts() {
        let output = copy_output(&input);
        let printed = lines(&output).filter_map(Printed::parse);
        let expected = printed.filter(|one| one.code == READ_ENDED && one.mark == NEWER).count();
        let all = shapes(&draw(&input).expect("a picture"));
        assert_eq!(groups(&all, "newer").len(), 2 * expected, "a bar and a box each");
        count += expected;
    }
    assert!(count > 0, "there are some");
}

/// An arrow's title is its message in the words of `tell`.
#[test]
fn messages_have_their_words() {
    for input in all_sorts() {
        let (told, all) = (story(&input).expect("a story"), shapes(&draw(&input).expect("a picture")));
        let titles: Vec<&str> = groups(&all, "message")
            .into_iter()
            .map(|at| members(&all, at)[0])
            .filter(|first| first.name == "title")
            .map(|first| first.text.as_str())
            .collect();
        let words: Vec<String> = told.arrows.iter().map(|arrow| sent(&arrow.message, bit(arrow.message.to))).collect();
        assert_eq!(titles, words);
    }
}

#[test]
fn a_reply_says_which_it_was() {
    for (input, which) in [(newer(), "tag (1,1), newer than asked"), (exact(), "tag (0,0), the tag asked for")] {
        let replies: Vec<Vec<String>> =
            texts(&drawn(&input), "message").into_iter().filter(|texts| texts[0].starts_with("read-ok ")).collect();
        assert_eq!(replies.len(), 1);
        assert!(replies[0][0].contains(which), "{replies:?}");
    }
}

/// The page has the picture, and the words of the line.
#[test]
fn the_page_says_so() {
    let said = last_meaning(&newer());
    let page = page("newer", newer().as_bytes()).expect("a page");
    assert_eq!(page.matches(&said).count(), 3, "bar, box and line");
}
