//! The page: all lines in its data, nothing from outside, and no line that breaks out of it.

use super::matter::{all_sorts, mixed, ODD};
use bench::history::raw_lines;
use bench::json;
use bench::page::{changes, page, MOST_LINES};
use bench::tell::Teller;
use bench::words::{machine, Sentence};

const BEGIN: &str = "<script id=\"schedule\" type=\"application/json\">";

fn data(page: &str) -> &str {
    let (_, behind) = page.split_once(BEGIN).expect("the data");
    behind.split_once("</script>").expect("its end").0
}

#[test]
fn every_line_is_in_the_page() {
    for input in all_sorts() {
        let page = page("a schedule", &input).expect("a page");
        let data = data(&page);
        let mut teller = Teller::new();
        let mut lines = data.trim_start_matches('[').split("\n").map(|line| line.trim_start_matches(','));
        for raw in raw_lines(&input) {
            let told = teller.take(raw);
            let begin = format!(
                "{{\"text\":{},\"code\":{},\"meaning\":{},",
                json::string(&told.text),
                told.code,
                json::string(&told.meaning)
            );
            assert!(lines.next().is_some_and(|line| line.starts_with(&begin)), "{begin}");
        }
        assert_eq!(lines.next(), Some("]"));
    }
}

#[test]
fn nothing_breaks_out_and_nothing_comes_from_outside() {
    for input in all_sorts() {
        let page = page("<title> & @@script@@", &input).expect("a page");
        assert_eq!(page.matches("http").count(), 1, "the namespace of the picture alone");
        assert_eq!(page.matches("<script").count(), 2);
        assert_eq!(page.matches("</script").count(), 2);
        assert!(!data(&page).contains('<'));
        assert!(page.contains("<title>&lt;title&gt; &amp; @@script@@</title>"));
    }
}

#[test]
fn the_title_is_the_only_thing_filled_twice() {
    let page = page("mine", &ODD.concat()).expect("a page");
    assert_eq!(page.matches("\"use strict\";").count(), 1);
    assert_eq!(page.matches("<svg").count(), 1);
}

/// What the page's script does with the changes of a line.
fn apply(tables: &mut Vec<Sentence>, before: &[Sentence], after: &[Sentence]) {
    for change in changes(before, after) {
        match change.text {
            None => tables.retain(|sentence| sentence.subject != change.subject),
            Some(text) => {
                let known = tables.get(change.place).is_some_and(|sentence| sentence.subject == change.subject);
                tables.splice(change.place..change.place + usize::from(known), [Sentence::new(change.subject, text)]);
            }
        }
    }
}

#[test]
fn changes_make_the_words_of_each_line() {
    for input in all_sorts() {
        let mut teller = Teller::new();
        let (mut before, mut tables) = (Vec::new(), Vec::new());
        for raw in raw_lines(&input) {
            teller.take(raw);
            let after = machine(teller.words());
            apply(&mut tables, &before, &after);
            assert_eq!(tables, after);
            before = after;
        }
    }
}

/// A page holds changes, not whole machines, so it grows with the lines alone.
#[test]
fn a_page_stays_small() {
    let short = page("short", &mixed(1, 500, 9)).expect("a page").len();
    let long = page("long", &mixed(1, 5000, 9)).expect("a page").len();
    assert!(long < 15 * short && long < 8_000_000, "{short} and {long}");
}

#[test]
fn a_browser_must_open_the_page() {
    let lines = |count: usize| b"D 1\n".repeat(count);
    assert!(page("all", &lines(MOST_LINES)).is_ok());
    let why = page("more", &lines(MOST_LINES + 1)).expect_err("too many lines");
    assert!(why.starts_with("the schedule has 10001 lines"), "{why}");
}

#[test]
fn strings_are_json() {
    assert_eq!(json::string("a\"b\\c</script>\n\u{1}é"), r#""a\"b\\c\u003c/script>\u000a\u0001é""#);
    assert_eq!(json::list(["1".to_string(), "2".to_string()]), "[1,2]");
    assert_eq!(json::list([]), "[]");
}
