//! `tell`: every sentence that it has, and that what it says is so.

#[path = "telling/columns.rs"]
mod columns;
#[path = "telling/marks.rs"]
mod marks;
#[path = "common/newer.rs"]
mod newer;

use bench::compare::copy_output;
use bench::history::{lines, raw_lines, Printed};
use bench::meaning::bad_argument;
use bench::newest::newest;
use bench::tell::{machine_after, mail, Line, Teller};
use bench::{cold_schedule, schedule};
use copy::line::{parse, Call};
use copy::mail::clear;
use copy::{Layout, Numbers, Rehearsal, Tag, Words};

/// One client, directory and replica; the first page is 7.
const SMALL: &str = "S 1 1 1 0 1 1 6 7\n";

fn told(input: &[u8]) -> Vec<Line> {
    let mut teller = Teller::new();
    raw_lines(input).map(|raw| teller.take(raw)).collect()
}

/// What is said of the last line.
fn meaning(input: &str) -> String {
    told(input.as_bytes()).pop().expect("a line").meaning
}

fn means(input: &str, sentence: &str) {
    assert_eq!(meaning(input), sentence, "of {input:?}");
}

/// A line and then deliveries from slot 1.
fn delivered(line: &str, times: usize) -> String {
    format!("{line}\n{}", "D 1\n".repeat(times))
}

#[test]
fn accepted_calls() {
    let new = "0 DONE: a new machine: 1 client, 1 directory, 1 replica; f 0, read quorum 1, write quorum 1, top 6; first page 7";
    means(SMALL, new);
    means(&format!("{SMALL}R 1\n"), "0 DONE: client 1 starts a read");
    means(&format!("{SMALL}W 1 9\n"), "0 DONE: client 1 starts to write page 9");
    means(&format!("{SMALL}R 1\nD 1\n"), "0 DONE: directory 1 takes it");
    means("S 1 1 2 0 1 1 6 7\nG 1 2\n", "0 DONE: replica 1 gossips to replica 2");
    means(&format!("{SMALL}T 1\n"), "0 DONE: replica 1 frees what is older than its newest secured page");
    for (line, party) in [("X 1 1", "client"), ("X 2 1", "directory"), ("X 3 1", "replica")] {
        means(&format!("{SMALL}{line}\n"), &format!("0 DONE: {party} 1 goes down"));
    }
    means(
        &(SMALL.to_string() + &delivered("R 1", 6)),
        "1 READ ENDED: the read of client 1 ends with page 7, tag (0,0), the tag asked for",
    );
    means(&(SMALL.to_string() + &delivered("W 1 9", 6)), "2 WRITE ENDED: the write of client 1 ends with tag (1,1)");
}

/// With top 3, three writes by three clients use up the numbers.
#[test]
fn a_spent_write() {
    let set_up = "S 4 1 1 0 1 1 3 7\n";
    let writes: String = (1..=3).map(|client| delivered(&format!("W {client} 9"), 7)).collect();
    let spent = "3 WRITE SPENT: client 4 has heard the number 3, which is top: its write is not done";
    means(&format!("{set_up}{writes}{}", delivered("W 4 9", 2)), spent);
}

#[test]
fn messages_that_come_to_nothing() {
    means(&format!("{SMALL}R 1\nX 2 1\nD 1\n"), "4 DROPPED: directory 1 is down; the message is gone");
    let three = "S 1 3 1 0 1 3 9 7\nR 1\nD 1\nD 2\nD 1\n";
    means(&format!("{three}D 2\n"), "5 STALE: client 1 is at message number 2 and no longer waits for 1");
    let idle = "S 1 1 2 0 1 1 9 7\nR 1\nD 1\nD 1\nD 1\nD 1\nD 1\nD 1\nD 2\nD 1\n";
    means(idle, "5 STALE: client 1 is idle and waits for nothing");
}

#[test]
fn lines_that_are_no_call() {
    let long = format!("R {}\n", "1".repeat(79));
    for (line, why) in [
        ("\n", "the line is empty"),
        ("R 1", "the last line has no end"),
        ("R 01\n", "its fields are not those of its letter"),
        ("r 1\n", "it begins with none of S, C, R, W, D, G, T, X"),
        (long.as_str(), "the line has 81 bytes; 80 are the most"),
    ] {
        means(line, &format!("18 BAD ARGUMENT: {why}"));
    }
}

#[test]
fn numbers_out_of_range() {
    for (line, why) in [
        ("R 2", "there is no client 2: they are 1 to 1"),
        ("W 0 9", "there is no client 0: they are 1 to 1"),
        ("D 129", "there is no slot 129: they are 1 to 128"),
        ("G 1 1", "a replica does not gossip to itself"),
        ("G 2 1", "there is no replica 2: they are 1 to 1"),
        ("G 1 2", "there is no replica 2: they are 1 to 1"),
        ("T 2", "there is no replica 2: they are 1 to 1"),
        ("X 1 2", "there is no client 2: they are 1 to 1"),
        ("X 2 2", "there is no directory 2: they are 1 to 1"),
        ("X 3 2", "there is no replica 2: they are 1 to 1"),
        ("X 0 1", "there is no kind 0: 1 client, 2 directory, 3 replica"),
        ("S 9 1 1 0 1 1 6 7", "clients are 1 to 8"),
        ("S 1 6 1 0 1 1 6 7", "directories are 1 to 5"),
        ("S 1 1 8 0 1 1 6 7", "replicas are 1 to 7"),
        ("S 1 1 7 4 1 1 6 7", "f is 0 to 3"),
        ("S 1 1 7 4294967295 1 1 6 7", "f is 0 to 3"),
        ("S 1 1 2 1 1 1 6 7", "2f + 1 is more than the replicas"),
        ("S 1 1 1 0 2 1 6 7", "the read quorum is 1 to the number of directories"),
        ("S 1 1 1 0 1 0 6 7", "the write quorum is 1 to the number of directories"),
        ("S 1 4294967295 1 0 4294967295 4294967295 6 7", "directories are 1 to 5"),
        ("S 1 3 1 0 1 2 6 7", "read and write quorum together are not more than the directories"),
        ("S 1 1 1 0 1 1 2 7", "top is 3 or more"),
    ] {
        means(&format!("{SMALL}{line}\n"), &format!("18 BAD ARGUMENT: {why}"));
    }
}

/// A set-up is told to be out of range exactly where it is.
#[test]
fn set_ups_out_of_range() {
    let none = Numbers { nc: 0, nd: 0, nr: 0, f: 0, rq: 0, wq: 0, top: 0, columns: 0 };
    let few = |most: u32| (0..=most).chain([u32::MAX]);
    let tops = [0, 2, 3, u32::MAX];
    for (nd, rq, wq) in few(6).flat_map(|nd| few(6).flat_map(move |rq| few(6).map(move |wq| (nd, rq, wq)))) {
        for (nc, nr, f, top) in few(9)
            .zip(tops.repeat(3))
            .flat_map(|(nc, top)| few(8).flat_map(move |nr| few(4).map(move |f| (nc, nr, f, top))))
        {
            let numbers = Numbers { nc, nd, nr, f, rq, wq, top, columns: 0 };
            let told = bad_argument(&none, Call::SetUp { layout: Layout::Base, numbers, word: 7 });
            assert_eq!(told.is_none(), numbers.in_range(Layout::Base), "{numbers:?}");
        }
    }
}

#[test]
fn refusals() {
    means("R 1\n", "17 BAD MACHINE: no set-up has been accepted yet");
    means(&format!("{SMALL}X 1 1\nR 1\n"), "19 DOWN: client 1 is down");
    means(&format!("{SMALL}X 2 1\nX 2 1\n"), "19 DOWN: directory 1 is down");
    means(&format!("{SMALL}X 3 1\nT 1\n"), "19 DOWN: replica 1 is down");
    means("S 1 1 2 0 1 1 6 7\nX 3 1\nG 1 2\n", "19 DOWN: replica 1 is down");
    means(&format!("{SMALL}R 1\nR 1\n"), "20 BUSY: client 1 is not idle: asking directories for the newest tag");
    let worn = SMALL.to_string() + &delivered("R 1", 6) + &delivered("R 1", 6) + "R 1\n";
    means(&worn, "21 WORN: client 1 has fewer than three message numbers left");
    means(&format!("{SMALL}D 5\n"), "22 EMPTY: the slot is empty");
}

/// Secure messages are left waiting, so that twelve entries fill up.
#[test]
fn a_full_replica() {
    let writes: String = (0..12).map(|kept| format!("W 1 9\n{}", format!("D {}\n", kept + 1).repeat(6))).collect();
    let input = format!("S 1 1 1 0 1 1 99 7\n{writes}");
    let full = told(input.as_bytes()).into_iter().find(|line| line.code == 23).expect("the thirteenth tag");
    assert_eq!(full.meaning, "23 FULL: replica 1 has no free entry for (12,1)");
    assert_eq!(full.details, ["not delivered: write from client 1 to replica 1, tag (12,1), page 9, number 35"]);
}

#[test]
fn no_empty_slot() {
    let gossips = "S 1 2 2 0 1 2 99 7\n".to_string() + &"G 1 2\n".repeat(128);
    means(&format!("{gossips}R 1\n"), "24 NO SLOT: it would send more messages than there are empty slots: 0");
    let delivery = "24 NO SLOT: it would send more messages than there are empty slots: 1, its own counted";
    means(&format!("{gossips}D 1\n"), delivery);
}

#[test]
fn what_moves() {
    let input = format!("{SMALL}W 1 9\nD 1\nD 1\nD 1\n");
    let lines = told(input.as_bytes());
    assert_eq!(
        lines[1].details,
        [
            "changed: client 1: writes page 9, phase 4, asking directories for the newest tag, message number 1; \
             waits for directory 1; has heard (0,0)",
            "sent: wread from client 1 to directory 1, number 1, in slot 1",
        ]
    );
    assert_eq!(lines[2].details[..2], ["delivered: wread from client 1 to directory 1, number 1", "changed: no row"]);
    assert_eq!(
        lines[4].to_string(),
        "5: D 1 -> 0 DONE: replica 1 takes it\n    \
         delivered: write from client 1 to replica 1, tag (1,1), page 9, number 2\n    \
         changed: replica 1: (0,0) page 7 secured, (1,1) page 9 held; 10 of 12 entries free\n    \
         sent: write-ok from replica 1 to client 1, number 2, in slot 1\n"
    );
}

/// No call of today takes a message away without delivering it; where one does, it is told.
#[test]
fn a_message_that_is_lost() {
    let mut machine = Rehearsal::new();
    for line in [&b"S 2 2 1 0 1 2 9 7"[..], b"R 1", b"R 2"] {
        machine.step(line);
    }
    let before = machine.words();
    let mut after = before.to_vec();
    clear(&mut after, 2);
    assert_eq!(mail(before, &after, 0), ["lost: rread from client 1 to directory 2, number 1, in slot 2"]);
    assert_eq!(mail(before, &after, 2), [""; 0]);
    let again = ["sent: rread from client 1 to directory 2, number 1, in slot 2"];
    assert_eq!(mail(&after, before, 0), again);
    assert_eq!(mail(before, before, 2), again, "delivered, and the like of it sent");
}

#[test]
fn the_machine_after_a_line() {
    let input = b"S 2 2 3 1 1 2 9 7\nW 1 9\nD 1\nD 1\nX 3 2\nD 1\n";
    let text = machine_after(input, 6).expect("a machine");
    let expected = "\
6: D 1 -> 0 DONE: replica 1 takes it
    delivered: write from client 1 to replica 1, tag (1,1), page 9, number 2
    changed: replica 1: (0,0) page 7 secured, (1,1) page 9 held; 10 of 12 entries free
    sent: write-ok from replica 1 to client 1, number 2, in slot 1
machine: 2 clients, 2 directories, 3 replicas; f 1, read quorum 1, write quorum 2, top 9
up: everybody but replica 2
client 1: writes page 9, phase 5, sending the page to replicas, message number 2; waits for 2 of replicas 1, 2 and 3; its tag is (1,1)
client 2: idle, message number 0
directory 1: tag (0,0) at replicas 1, 2 and 3
directory 2: tag (0,0) at replicas 1, 2 and 3
replica 1: (0,0) page 7 secured, (1,1) page 9 held; 10 of 12 entries free
replica 2: down; (0,0) page 7 secured; 11 of 12 entries free
replica 3: (0,0) page 7 secured; 11 of 12 entries free
mail: 4 of 128 slots
slot 1: write-ok from replica 1 to client 1, number 2
slot 2: wread from client 1 to directory 2, number 1
slot 3: write from client 1 to replica 2, tag (1,1), page 9, number 2
slot 4: write from client 1 to replica 3, tag (1,1), page 9, number 2
newest page: 9, tag (1,1), being written by client 1: held at replica 1; on its way in slots 3, 4; named by no directory
newest page but for writes under way: 7, tag (0,0), the first page: secured at replicas 1, 2 and 3 (2 down); named by directories 1 and 2
";
    assert_eq!(text, expected);
    assert!(machine_after(input, 7).is_err_and(|why| why == "there is no line 7: the schedule has 6"));
    assert!(machine_after(input, 0).is_err());
    assert!(machine_after(b"R 1\n", 1).is_ok_and(|text| text.ends_with("no set-up has been accepted yet\n")));
}

#[test]
fn a_write_whose_client_is_down() {
    let text = machine_after(b"S 1 1 1 0 1 1 9 7\nW 1 9\nD 1\nD 1\nX 1 1\n", 5).expect("a machine");
    assert!(text.contains("client 1: down; writes page 9, phase 5"), "{text}");
    let newest =
        "newest page: 9, tag (1,1), of a write that client 1 left undone: on its way in slot 1; named by no directory";
    assert!(text.contains(newest), "{text}");
    let dropped = machine_after(b"S 1 1 1 0 1 1 9 7\nW 1 9\nD 1\nD 1\nX 3 1\nD 1\n", 6).expect("a machine");
    assert!(
        dropped.contains("9, tag (1,1), being written by client 1: at its client alone; named by no directory"),
        "{dropped}"
    );
}

/// The tag of the newest page that is anywhere.
fn newest_tag(m: &Words) -> Tag {
    newest(m, &[]).expect("a page").tag
}

/// It answers as the copy does; the newest page never gets older, and no read ends above it.
#[test]
fn all_sorts_of_schedule() {
    for seed in 0..100 {
        let input = schedule(seed, 400);
        let output = copy_output(&input);
        let mut teller = Teller::new();
        let mut before = Tag::FIRST;
        for (raw, answer) in raw_lines(&input).zip(lines(&output).filter_map(Printed::parse)) {
            let line = teller.take(raw);
            assert_eq!((line.number, line.code), (answer.line, answer.code), "seed {seed}");
            let renewed = line.code == 0 && matches!(parse(&raw[..raw.len() - 1]), Some(Call::SetUp { .. }));
            let newest = newest_tag(teller.words());
            assert!(renewed || newest >= before, "seed {seed}, line {}", line.number);
            assert!(newest >= answer.tag, "seed {seed}, line {}", line.number);
            before = newest;
        }
        assert!(Numbers::read(teller.words()).in_range(Layout::of(teller.words())));
    }
}

/// Lines before the first set-up, odd ones, and a last one without its end.
#[test]
fn from_the_zero_words() {
    for seed in 0..300 {
        let input = cold_schedule(seed, 60);
        let output = copy_output(&input);
        let answers: Vec<u32> = lines(&output).filter_map(Printed::parse).map(|answer| answer.code).collect();
        let codes: Vec<u32> = told(&input).iter().map(|line| line.code).collect();
        assert_eq!(codes, answers, "seed {seed}");
        assert!(machine_after(&input, codes.len()).is_ok());
    }
}
