//! Whether a read got the tag that it asked for, wherever a read-ok or its end is told.

use super::newer::{exact, newer};
use super::{means, told};
use bench::compare::copy_output;
use bench::history::{lines, raw_lines, Printed};
use bench::names::tag;
use bench::schedule;
use bench::tell::{machine_after, mail, Teller};
use copy::client::Client;
use copy::mail::clear;
use copy::Rehearsal;

const NEWER: &str = "read-ok from replica 1 to client 2, tag (1,1), newer than asked, page 9, number 3";
const EXACT: &str = "read-ok from replica 1 to client 2, tag (0,0), the tag asked for, page 7, number 3";

#[test]
fn the_end_of_a_read() {
    let ended = "1 READ ENDED: the read of client 2 ends with";
    means(&newer(), &format!("{ended} page 9, tag (1,1), newer than the (0,0) that it had asked for"));
    means(&exact(), &format!("{ended} page 7, tag (0,0), the tag asked for"));
}

#[test]
fn a_reply_sent_and_delivered() {
    for (input, reply) in [(newer(), NEWER), (exact(), EXACT)] {
        let all = told(input.as_bytes());
        let [.., sending, delivery] = all.as_slice() else { panic!("two lines") };
        assert_eq!(sending.details[2], format!("sent: {reply}, in slot 1"));
        assert_eq!(delivery.details[0], format!("delivered: {reply}"));
    }
}

#[test]
fn a_reply_that_waits() {
    for (input, reply) in [(newer(), NEWER), (exact(), EXACT)] {
        let text = machine_after(input.as_bytes(), input.lines().count() - 1).expect("a machine");
        assert!(text.contains(&format!("\nslot 1: {reply}\n")), "{text}");
    }
}

#[test]
fn a_reply_that_is_lost() {
    for (input, reply) in [(newer(), NEWER), (exact(), EXACT)] {
        let mut machine = Rehearsal::new();
        for line in input.lines().take(input.lines().count() - 1) {
            machine.step(line.as_bytes());
        }
        let mut after = machine.words().to_vec();
        clear(&mut after, 1);
        assert_eq!(mail(machine.words(), &after, 0), [format!("lost: {reply}, in slot 1")]);
    }
}

/// Two replicas answer one read; the reply of the second, which has tidied, comes too late.
#[test]
fn a_reply_that_is_stale() {
    let asked = "S 2 1 2 0 1 1 99 7\nR 2\nD 1\nD 1\nD 1\nD 1\n";
    let written = format!("W 1 9\nD 3\nD 3\n{}T 2\n", "D 4\n".repeat(5));
    let all = told(format!("{asked}{written}D 1\nD 1\nD 2\nD 1\n").as_bytes());
    let stale = all.last().expect("a line");
    assert_eq!(stale.meaning, "5 STALE: client 2 is idle and waits for nothing");
    let reply = "read-ok from replica 2 to client 2, tag (1,1), newer than asked, page 9, number 3";
    assert_eq!(stale.details[0], format!("delivered: {reply}"));
}

/// What is said of a read's end is what was printed, and what its client's row had before it.
#[test]
fn ends_of_all_sorts() {
    let mut ends = [0, 0];
    for input in (0..100).map(|seed| schedule(seed, 400)).chain([newer().into_bytes()]) {
        let output = copy_output(&input);
        let mut teller = Teller::new();
        for (raw, answer) in raw_lines(&input).zip(lines(&output).filter_map(Printed::parse)) {
            let wanted = (answer.code == 1).then(|| tag(Client::read(teller.words(), answer.client).tag));
            let meaning = teller.take(raw).meaning;
            let Some(wanted) = wanted else { continue };
            let told = match answer.mark {
                1 => format!(", tag {wanted}, the tag asked for"),
                _ => format!(", tag {}, newer than the {wanted} that it had asked for", tag(answer.tag)),
            };
            assert!(meaning.ends_with(&told), "{meaning}, not {told}");
            ends[answer.mark as usize] += 1;
        }
    }
    println!("{} reads got a newer tag, {} the one asked for", ends[0], ends[1]);
    assert!(ends[0] > 0 && ends[1] > 100);
}
