//! The checker of answers and of their line refuses what must be refused.

use bench::compare::copy_output;
use bench::order::check;
use bench::{cold_schedule, schedule};

const SET_UP: (&str, &str) = ("S 3 1 1 0 1 1 99 7", "0 0 0 0 0 0");

/// Checks lines and answers given in pairs, after a set-up with first page 7.
fn told(pairs: &[(&str, &str)]) -> Result<usize, String> {
    let all: Vec<_> = std::iter::once(&SET_UP).chain(pairs).collect();
    let input: String = all.iter().map(|(line, _)| format!("{line}\n")).collect();
    let output: String = all.iter().enumerate().map(|(at, (_, answer))| format!("{} {answer}\n", at + 1)).collect();
    check(input.as_bytes(), output.as_bytes()).map(|checked| checked.in_line)
}

const DONE: &str = "0 0 0 0 0 0";
const WRITE_9: [(&str, &str); 2] = [("W 1 9", DONE), ("D 1", "2 1 1 1 0 0")];

fn refused(pairs: &[(&str, &str)], why: &str) {
    let error = told(pairs).expect_err(why);
    assert!(error.contains(why), "{error}");
}

#[test]
fn accepts_write_then_read() {
    let reads = [("R 2", DONE), ("D 1", "1 2 1 1 9 1"), ("R 3", DONE), ("D 1", "1 3 1 1 9 1")];
    assert_eq!(told(&[&WRITE_9[..], &reads].concat()), Ok(3));
}

#[test]
fn refuses_a_stale_read() {
    refused(&[&WRITE_9[..], &[("R 2", DONE), ("D 1", "1 2 0 0 7 1")]].concat(), "yet follows it");
}

#[test]
fn refuses_new_then_old() {
    // The write is not finished, so each read alone is allowed, but not in this order.
    let new = [("W 1 9", DONE), ("R 2", DONE), ("D 1", "1 2 1 1 9 1")];
    let old = [("R 3", DONE), ("D 1", "1 3 0 0 7 1")];
    assert_eq!(told(&new), Ok(2));
    refused(&[&new[..], &old].concat(), "yet follows it");
    // The other way round is right, and so is any order of reads at one time.
    assert_eq!(
        told(&[("W 1 9", DONE), ("R 3", DONE), ("D 1", "1 3 0 0 7 1"), ("R 2", DONE), ("D 1", "1 2 1 1 9 1")]),
        Ok(3)
    );
    assert_eq!(
        told(&[("W 1 9", DONE), ("R 3", DONE), ("R 2", DONE), ("D 1", "1 2 1 1 9 1"), ("D 1", "1 3 0 0 7 1")]),
        Ok(3)
    );
}

#[test]
fn refuses_a_read_before_its_write() {
    refused(&[("R 2", DONE), ("D 1", "1 2 1 1 9 1"), ("W 1 9", DONE)], "yet follows it");
    refused(&[("R 2", DONE), ("D 1", "1 2 1 1 9 1")], "no write has");
}

#[test]
fn refuses_another_page() {
    refused(&[&WRITE_9[..], &[("R 2", DONE), ("D 1", "1 2 1 1 7 1")]].concat(), "should show 9");
    refused(&[("R 2", DONE), ("D 1", "1 2 0 0 8 1")], "should show 7");
}

/// Client 2 reads while client 1 writes 9: the write ends first, the read gets its page.
const OVERTAKEN: [(&str, &str); 4] = [("R 2", DONE), ("W 1 9", DONE), ("D 1", "2 1 1 1 0 0"), ("D 1", "1 2 1 1 9 0")];

/// Which tag was asked for is printed nowhere, so the same read may also say that it was this one.
#[test]
fn accepts_a_newer_page() {
    assert_eq!(told(&OVERTAKEN), Ok(2));
    assert_eq!(told(&[&OVERTAKEN[..3], &[("D 1", "1 2 1 1 9 1")]].concat()), Ok(2));
    // An older write had ended before, and another read of the same page at the same time.
    let older = [("W 3 8", DONE), ("D 1", "2 3 1 3 0 0"), ("R 3", DONE)];
    let newer = [("R 2", DONE), ("W 1 9", DONE), ("D 1", "2 1 2 1 0 0")];
    let both = [("D 1", "1 3 2 1 9 0"), ("D 1", "1 2 2 1 9 0")];
    assert_eq!(told(&[&older[..], &newer, &both].concat()), Ok(4));
}

/// A read asks for the tag of what ended before it, or a greater one: that tag is none in its stead.
#[test]
fn refuses_a_newer_page_that_is_not_newer() {
    let late = [("R 3", DONE), ("D 1", "1 3 1 1 9 0")];
    let said = |line| format!("read of client 3 from line {line} with (1,1) 9 got a newer tag than it asked for, yet ");
    let written = "write of client 1 from line 2 with (1,1) 9 ended before it started";
    refused(&[&WRITE_9[..], &late].concat(), &(said(4) + written));
    // Of an open write another read has already shown the page.
    let shown = [("W 1 9", DONE), ("R 2", DONE), ("D 1", "1 2 1 1 9 1"), ("R 3", DONE), ("D 1", "2 1 1 1 0 0")];
    let read = "read of client 2 from line 3 with (1,1) 9 ended before it started";
    refused(&[&shown[..], &late[1..]].concat(), &(said(5) + read));
    let first = "read of client 2 from line 2 with (0,0) 7 got a newer tag than it asked for, yet no tag is lower";
    refused(&[("R 2", DONE), ("D 1", "1 2 0 0 7 0")], first);
}

/// Only what is secured stands in for another, and a write secures at its end.
#[test]
fn refuses_a_newer_page_before_its_write_ended() {
    let why = "yet write of client 1 from line 3 with (1,1) 9 had not ended";
    let open = [("R 2", DONE), ("W 1 9", DONE), ("D 1", "1 2 1 1 9 0")];
    refused(&open, why);
    refused(&[&open[..], &[("D 1", "2 1 1 1 0 0")]].concat(), why);
}

#[test]
fn refuses_tags_that_cannot_be() {
    let again = [("W 2 8", DONE), ("D 1", "2 2 1 1 0 0")];
    refused(&[&WRITE_9[..], &again].concat(), "ended with tag");
    let twice = [("W 1 8", DONE), ("D 1", "2 1 1 1 0 0")];
    refused(&[&WRITE_9[..], &twice].concat(), "two writes");
    let two_tags = [("W 1 9", DONE), ("R 2", DONE), ("D 1", "1 2 1 1 9 1"), ("R 2", DONE), ("D 1", "1 2 2 1 9 1")];
    refused(&two_tags, "under two tags");
}

#[test]
fn spent_is_no_operation_of_the_line() {
    let spent = [("W 1 9", DONE), ("D 1", "3 1 0 0 0 0")];
    assert_eq!(told(&spent), Ok(0));
    refused(&[&spent[..], &[("R 2", DONE), ("D 1", "1 2 1 1 9 1")]].concat(), "no write has");
}

#[test]
fn refuses_ends_without_starts() {
    refused(&[("D 1", "1 2 0 0 7 1")], "did not start");
    refused(&[("R 2", DONE), ("D 1", "2 2 1 2 0 0")], "another kind");
    refused(&[("R 2", DONE), ("R 2", DONE)], "not idle");
}

/// Input and answers as they stand.
fn raw_refused(input: &[u8], output: &[u8], why: &str) {
    assert_eq!(check(input, output).map_err(|error| error.to_string()), Err(why.to_string()));
}

const ONE: &[u8] = b"S 1 1 1 0 1 1 9 7\n";

#[test]
fn refuses_unlisted_codes() {
    raw_refused(ONE, b"1 6 0 0 0 0 0\n", "line 1: 6 is no listed code");
    raw_refused(ONE, b"1 4294967295 0 0 0 0 0\n", "line 1: 4294967295 is no listed code");
}

#[test]
fn refuses_filled_fields() {
    let why = "line 1: 0 DONE has the client 1, where 0 is listed";
    raw_refused(ONE, b"1 0 1 0 0 0 0\n", why);
    raw_refused(ONE, b"1 0 0 1 1 0 0\n", "line 1: 0 DONE has the tag (1,1), where 0 is listed");
    raw_refused(ONE, b"1 0 0 0 0 7 0\n", "line 1: 0 DONE has the page word 7, where 0 is listed");
    raw_refused(b"R 1\n", b"1 17 0 0 0 7 0\n", "line 1: 17 BAD MACHINE has the page word 7, where 0 is listed");
    refused(&[("W 1 9", DONE), ("D 1", "2 1 1 1 9 0")], "line 3: 2 WRITE ENDED has the page word 9");
    refused(&[("W 1 9", DONE), ("D 1", "3 1 1 1 0 0")], "line 3: 3 WRITE SPENT has the tag (1,1)");
    refused(&[("W 1 9", DONE), ("D 1", "3 1 0 0 9 0")], "line 3: 3 WRITE SPENT has the page word 9");
    refused(&[("D 1", "4 1 0 0 0 0")], "line 2: 4 DROPPED has the client 1");
    raw_refused(ONE, b"1 0 0 0 0 0 1\n", "line 1: 0 DONE has the mark 1, where 0 is listed");
    raw_refused(b"\n", b"1 18 0 0 0 0 1\n", "line 1: 18 BAD ARGUMENT has the mark 1, where 0 is listed");
    refused(&[("W 1 9", DONE), ("D 1", "2 1 1 1 0 1")], "line 3: 2 WRITE ENDED has the mark 1, where 0 is listed");
    refused(&[("W 1 9", DONE), ("D 1", "3 1 0 0 0 2")], "line 3: 3 WRITE SPENT has the mark 2, where 0 is listed");
}

#[test]
fn refuses_marks_that_are_none() {
    for mark in ["2", "3", "4294967295"] {
        let why = format!("line 3: {mark} is no mark: 1 is for the tag asked for, 0 for a newer one");
        refused(&[("R 1", DONE), ("D 1", &format!("1 1 0 0 7 {mark}"))], &why);
    }
}

#[test]
fn refuses_tags_that_are_none() {
    refused(&[("W 2 9", DONE), ("R 1", DONE), ("D 1", "1 1 0 2 9 1")], "line 4: (0,2) is no tag");
    refused(&[("R 1", DONE), ("D 1", "1 1 3 0 7 1")], "line 3: (3,0) is no tag");
    refused(&[("W 1 9", DONE), ("D 1", "2 1 100 1 0 0")], "line 3: the tag (100,1) is above top 99");
}

#[test]
fn refuses_wrong_numbers() {
    raw_refused(ONE, b"2 0 0 0 0 0 0\n", "answer 1 has the number 2");
    raw_refused(ONE, b"4294967297 0 0 0 0 0 0\n", "answer 1 has the number 4294967297");
    raw_refused(&[ONE, b"R 1\n"].concat(), b"1 0 0 0 0 0 0\n1 0 0 0 0 0 0\n", "answer 2 has the number 1");
}

#[test]
fn refuses_what_is_no_answer() {
    let unreadable = |answer: &[u8], why: &str| {
        let error = check(ONE, &[answer, b"\n"].concat()).expect_err(why);
        let shown = answer.escape_ascii();
        assert_eq!(error, format!("answer 1 is not readable: {why} in \"{shown}\""));
    };
    unreadable(b"", "\"\" is no number");
    unreadable(b"1 00 0 0 0 0 0", "\"00\" has a leading zero");
    unreadable(b"01 0 0 0 0 0 0", "\"01\" has a leading zero");
    unreadable(b"1 0 0 0 0 0 00", "\"00\" has a leading zero");
    unreadable(b"1 0 0 0 0 0 -0", "\"-0\" is no number");
    unreadable(b"+1 0 0 0 0 0 0", "\"+1\" is no number");
    unreadable(b"1  0 0 0 0 0 0", "\"\" is no number");
    unreadable(b" 1 0 0 0 0 0 0", "\"\" is no number");
    unreadable(b"1 0 0 0 0 0 ", "\"\" is no number");
    unreadable(b"1 0 0 0 0 0 0 ", "more than seven numbers");
    unreadable(b"1 0 0 0 0 0 0 0", "more than seven numbers");
    unreadable(b"1 0 0 0 0 0", "fewer than seven numbers");
    unreadable(b"1 0 0 0 0 0 0\r", "\"0\\r\" is no number");
    unreadable(b"1\t0 0 0 0 0 0 0", "\"1\\t0\" is no number");
    unreadable(b"1 0 0 0 0 0 \xff", "\"\\xff\" is no number");
    unreadable(b"1 4294967296 0 0 0 0 0", "\"4294967296\" is above 4294967295");
    unreadable(b"1 0 0 0 0 0 4294967296", "\"4294967296\" is above 4294967295");
    unreadable(b"18446744073709551616 0 0 0 0 0 0", "\"18446744073709551616\" is above 18446744073709551615");
}

#[test]
fn refuses_missing_and_needless_answers() {
    raw_refused(ONE, b"", "line 1 has no answer");
    raw_refused(ONE, b"1 0 0 0 0 0 0", "answer 1 has no LF at its end");
    raw_refused(ONE, b"1 0 0 0 0 0 0\n2 18 0 0 0 0 0\n", "answer 2 answers no line");
    raw_refused(ONE, b"1 0 0 0 0 0 0\n\n", "answer 2 answers no line");
    raw_refused(b"", b"\n", "answer 1 answers no line");
}

/// A malformed line, and a last one without LF, is 18 and nothing else.
#[test]
fn refuses_calls_that_were_not_made() {
    refused(&[("R 02", DONE)], "line 2: \"R 02\" is malformed, which is 18 BAD ARGUMENT, not 0 DONE");
    refused(&[("", "17 0 0 0 0 0")], "line 2: \"\" is malformed, which is 18 BAD ARGUMENT, not 17 BAD MACHINE");
    let input = ONE.strip_suffix(b"\n").unwrap_or_default();
    let why = "line 1: \"S 1 1 1 0 1 1 9 7\" has no LF at its end, which is 18 BAD ARGUMENT, not 0 DONE";
    raw_refused(input, b"1 0 0 0 0 0 0\n", why);
    assert!(check(input, b"1 18 0 0 0 0 0\n").is_ok());
}

/// Numbers alone decide 17 and 18, and whether a set-up is accepted.
#[test]
fn refuses_codes_that_the_numbers_exclude() {
    raw_refused(
        b"S 0 1 1 0 1 1 9 7\n",
        b"1 0 0 0 0 0 0\n",
        "line 1: \"S 0 1 1 0 1 1 9 7\" has numbers out of range, which is 18 BAD ARGUMENT, not 0 DONE",
    );
    raw_refused(
        ONE,
        b"1 18 0 0 0 0 0\n",
        "line 1: \"S 1 1 1 0 1 1 9 7\" has its numbers in range, which is 0 DONE, not 18 BAD ARGUMENT",
    );
    raw_refused(
        b"R 1\n",
        b"1 0 0 0 0 0 0\n",
        "line 1: \"R 1\" stands before the first accepted set-up, which is 17 BAD MACHINE, not 0 DONE",
    );
    let outside =
        ["R 4", "W 0 9", "D 0", "D 129", "G 1 1", "G 1 2", "T 2", "X 0 1", "X 4 1", "X 1 4", "X 2 2", "X 3 2"];
    for line in outside {
        let why = format!("\"{line}\" has a number out of range, which is 18 BAD ARGUMENT, not");
        refused(&[(line, DONE)], &why);
        assert_eq!(told(&[(line, "18 0 0 0 0 0")]), Ok(0));
    }
}

/// Every call with every listed code: these come, the others are refused.
#[test]
fn refuses_codes_that_a_call_cannot_get() {
    let two = "S 2 2 2 0 2 2 99 7";
    let calls: [(&str, &[u32]); 6] = [
        ("R 1", &[0, 19, 20, 21, 24]),
        ("W 1 9", &[0, 19, 20, 21, 24]),
        ("D 1", &[0, 4, 5, 22, 23, 24]),
        ("G 1 2", &[0, 19, 24]),
        ("T 1", &[0, 19]),
        ("X 2 1", &[0, 19]),
    ];
    for (line, possible) in calls {
        for code in (0..=5).chain(16..=24).filter(|code| line != "D 1" || !(1..=3).contains(code)) {
            let answered = told(&[(two, DONE), (line, &format!("{code} 0 0 0 0 0"))]);
            let refusal = format!("line 3: \"{line}\" cannot get {}", bench::names::code(code));
            assert_eq!(answered, if possible.contains(&code) { Ok(0) } else { Err(refusal) });
        }
    }
    // Ends of operations at deliveries are among the other tests.
}

#[test]
fn says_what_was_checked() {
    let worked = [ONE, b"W 1 9\n", &b"D 1\n".repeat(6), b"R 1\n"].concat();
    let said = |input: &[u8]| check(input, &copy_output(input)).map(|checked| checked.to_string());
    let one = "9 lines: numbers, codes and fields are as listed; 1 set-up; 1 operation in one line, of 2 started";
    assert_eq!(said(&worked), Ok(one.to_string()));
    let two = "2 set-ups; 2 operations in a line for each set-up, of 4 started";
    assert!(said(&worked.repeat(2)).is_ok_and(|said| said.ends_with(two)));
    let none = "1 line: numbers, codes and fields are as listed; 0 set-ups; 0 operations in one line, of 0 started";
    assert_eq!(said(b"\xff"), Ok(none.to_string()));
}

#[test]
fn a_set_up_begins_anew() {
    let anew = [("S 3 1 1 0 1 1 99 5", DONE), ("R 2", DONE), ("D 1", "1 2 0 0 5 1")];
    assert_eq!(told(&[&WRITE_9[..], &anew].concat()), Ok(2));
}

#[test]
fn copy_keeps_the_line() {
    for seed in 0..200 {
        let input = schedule(seed, 400);
        let checked = check(&input, &copy_output(&input));
        assert!(checked.is_ok(), "seed {seed}: {checked:?}");
        let cold = cold_schedule(seed, 40);
        let checked = check(&cold, &copy_output(&cold));
        assert!(checked.is_ok(), "cold seed {seed}: {checked:?}");
    }
}
