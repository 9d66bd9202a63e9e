//! Each sentence, by a small schedule.

use bench::ending::TRIES;
use bench::history::lines;
use bench::view;
use bench::why::{end, explain, tell, why};
use copy::line::Call;
use copy::rehearsal::run;
use copy::Words;

/// The lines, and deliveries of the lowest waiting message until none waits.
fn drained(text: &str) -> String {
    let mut text = text.to_string();
    let mut words: Box<Words> = end(text.as_bytes()).words().into();
    while let Some(&slot) = view::waiting(&words).first() {
        assert!(run(&mut words, Call::Deliver { slot }).answer.accepted());
        text.push_str(&format!("D {slot}\n"));
    }
    text
}

fn many(lines: &[&str]) -> String {
    lines.iter().map(|line| format!("{line}\n")).collect()
}

pub fn says(input: &str, expected: &[&str]) {
    let told = why(input.as_bytes());
    assert_eq!(told.text, many(expected));
    assert_eq!(told.status(), Ok(()));
}

const READ_1: &str = "client 1: read, open since line 2, phase 1, asking directories for the newest tag; 0 of";
const WHOLE_6: &str = "by the theorem a whole read takes 2rq + 2wq + 2 = 6";
const WHOLE_10: &str = "by the theorem a whole read takes 2rq + 2wq + 2 = 10";
const WRITE_10: &str = "by the theorem a whole write takes 2rq + 2wq + 2f + 2 = 10";
pub const NONE: &str = "  the boat's fault: no deliveries can end it";

#[test]
fn says_that_nothing_is_open() {
    says("S 1 1 1 0 1 1 9 7\n", &["no operation is open"]);
    says(&drained("S 1 1 1 0 1 1 9 7\nR 1\n"), &["no operation is open"]);
    says("S 1 1 1 0 1 1 9 7\nR 1\nS 1 1 1 0 1 1 9 7\n", &["no operation is open"]);
    says("", &["no set-up was accepted"]);
    // Refused, malformed, and a last line without LF.
    says("R 1\nS 1 1 1 1 1 1 9 7\nS 1 1 1 0 1 1 9\nS 1 1 1 0 1 1 9 7", &["no set-up was accepted"]);
}

#[test]
fn lines_that_are_refused_start_nothing() {
    let odd = "S 1 1 1 0 1 1 9 7\nR 2\nR 01\nR 1\nR 1\nW 1 8\nS 0 1 1 0 1 1 9 7\nX 1 1";
    let heading = "client 1: read, open since line 4, phase 1, asking directories for the newest tag; 0 of 1 answered";
    let list = format!("  6 deliveries end it: D 1, D 1, D 1, D 1, D 1, D 1; {WHOLE_6}, of which 6 are left");
    says(odd, &[heading, "  no premise fails", &list]);
}

#[test]
fn says_that_the_client_is_down() {
    says(
        "S 1 1 1 0 1 1 9 7\nR 1\nX 1 1\n",
        &[
            &format!("{READ_1} 1 answered"),
            "  fails: client 1 is down",
            &format!("{NONE}; {WHOLE_6}, of which 6 are left"),
        ],
    );
}

#[test]
fn says_that_directories_are_down() {
    says(
        "S 1 3 1 0 2 2 9 7\nR 1\nX 2 1\nX 2 3\n",
        &[
            &format!("{READ_1} 2 answered"),
            "  fails: 1 of 3 directories is up; reading takes 2 and writing 2",
            &format!("{NONE}; {WHOLE_10}, of which 10 are left"),
        ],
    );
    // The first reply waits and counts for reading; nothing does for the writing to come.
    says(
        "S 1 3 1 0 2 2 9 7\nR 1\nD 1\nX 2 1\nX 2 2\n",
        &[
            &format!("{READ_1} 2 answered"),
            "  fails: 1 of 3 directories is up and 1 replied before going down; reading takes 2 and writing 2",
            &format!("{NONE}; {WHOLE_10}, of which 9 are left"),
        ],
    );
    // One has answered in the second phase, so one that is up is enough; and then none is.
    let second = "S 1 3 1 0 2 2 9 7\nR 1\nD 1\nD 1\nD 2\nD 1\nD 1\nD 1\nX 2 1\nX 2 2\n";
    let heading = "client 1: read, open since line 2, phase 2, telling directories the tag it read; 1 of 2 answered";
    says(
        second,
        &[
            heading,
            "  no premise fails",
            &format!("  4 deliveries end it: D 4, D 1, D 1, D 1; {WHOLE_10}, of which 4 are left"),
        ],
    );
    says(
        &format!("{second}X 2 3\n"),
        &[
            heading,
            "  fails: 0 of 3 directories are up and 1 replied before going down; writing takes 2",
            &format!("{NONE}; {WHOLE_10}, of which 4 are left"),
        ],
    );
}

#[test]
fn says_that_replicas_are_down() {
    says(
        "S 1 1 7 2 1 1 9 7\nR 1\nX 3 1\nX 3 2\nX 3 3\n",
        &[
            &format!("{READ_1} 1 answered"),
            "  fails: 3 of 7 replicas are down and f is 2",
            &format!(
                "  6 deliveries end it all the same: D 1, D 1, D 1, D 1, D 4, D 4; {WHOLE_6}, of which 6 are left"
            ),
        ],
    );
}

/// A write to replicas 1 and 2 alone, and a read that asks them.
const ASKS_TWO: &str = "S 2 1 3 1 1 1 99 7\nW 1 9\nD 1\nD 1\nD 1\nD 1\nD 2\nD 1\nD 1\nD 1\n\
    R 2\nD 4\nD 4\nD 4\nD 4\n";
const ASKING: &str = "client 2: read, open since line 11, phase 3, asking replicas for the page; 0 of 1 answered";

#[test]
fn says_that_its_set_is_down() {
    says(
        &format!("{ASKS_TWO}X 3 1\nX 3 2\n"),
        &[
            ASKING,
            "  fails: 2 of 3 replicas are down and f is 1",
            "  fails: no replica of its set {1, 2} is up",
            &format!("{NONE}; {WHOLE_6}, of which 2 are left"),
        ],
    );
    // A reply that waits needs nobody up any more; nor does a replica out of its set matter.
    says(
        &format!("{ASKS_TWO}D 4\nX 3 1\nX 3 2\n"),
        &[
            ASKING,
            "  fails: 2 of 3 replicas are down and f is 1",
            &format!("  1 delivery ends it all the same: D 4; {WHOLE_6}, of which 1 is left"),
        ],
    );
}

/// Eleven writes that reach all replicas, which then have twelve entries.
fn hoarded(set_up: &str) -> String {
    (0..11).fold(format!("{set_up}\n"), |text, word| drained(&format!("{text}W 1 {}\n", word + 10)))
}

#[test]
fn says_that_entries_are_full() {
    let full = hoarded("S 1 1 3 1 1 1 99 7");
    let since = lines(full.as_bytes()).count() + 1;
    let fourth = format!(
        "client 1: write, open since line {since}, phase 4, asking directories for the newest tag; 0 of 1 answered"
    );
    let whole = "by the theorem a whole write takes 2rq + 2wq + 2f + 2 = 8";
    says(
        &format!("{full}W 1 9\n"),
        &[
            &fourth,
            "  fails: no free entry at replicas 1, 2 and 3: 0 of the 2 that it needs have room",
            &format!("{NONE}; {whole}, of which 8 are left"),
        ],
    );
    let fifth = format!(
        "client 1: write, open since line {}, phase 5, sending the page to replicas; 1 of 2 answered",
        since + 1
    );
    let last = "  fails: no free entry at replicas 1 and 3: 1 of the 2 that it needs has room";
    says(
        &format!("{full}T 2\nW 1 9\nD 1\nD 1\nD 2\nD 2\n"),
        &[&fifth, last, &format!("{NONE}; {whole}, of which 4 are left")],
    );
    // The one that has answered counts though it is down.
    says(
        &format!("{full}T 1\nT 2\nW 1 9\nD 1\nD 1\nD 2\nD 2\nX 3 2\n"),
        &[
            &fifth.replace(&format!("line {}", since + 1), &format!("line {}", since + 2)),
            "  no premise fails",
            &format!("  4 deliveries end it: D 1, D 1, D 1, D 1; {whole}, of which 4 are left"),
        ],
    );
}

#[test]
fn says_that_slots_are_few() {
    let gossips = |count: usize| "G 1 2\n".repeat(count);
    says(
        &format!("S 1 1 2 0 1 1 99 7\nR 1\n{}", gossips(112)),
        &[
            &format!("{READ_1} 1 answered"),
            "  fails: 15 empty slots; 16 are wanted in this phase",
            &format!(
                "  6 deliveries end it all the same: D 1, D 1, D 1, D 1, D 1, D 1; {WHOLE_6}, of which 6 are left"
            ),
        ],
    );
    // The read sends two at the end of its second phase, so one slot more must be emptied:
    // gossip leaves a notice in its place, and that leaves nothing.
    says(
        &format!("S 1 1 2 0 1 1 99 7\nR 1\n{}", gossips(127)),
        &[
            &format!("{READ_1} 1 answered"),
            "  fails: 0 empty slots; 16 are wanted in this phase",
            &format!(
                "  8 deliveries end it all the same: D 1, D 1, D 1, D 2, D 2, D 1, D 1, D 1; {WHOLE_6}, of which 6 are left"
            ),
        ],
    );
}

/// Three writes of three clients, so that the number is at top.
pub fn spent(set_up: &str) -> String {
    (1..4).fold(format!("{set_up}\n"), |text, client| drained(&format!("{text}W {client} 9\n")))
}

#[test]
fn says_that_the_number_is_at_top() {
    let top = spent("S 4 2 1 0 2 1 3 7");
    let since = lines(top.as_bytes()).count() + 1;
    let heading = |answered| {
        format!(
            "client 4: write, open since line {since}, phase 4, asking directories for the newest tag; \
             {answered} of 2 answered"
        )
    };
    let whole = "by the theorem a whole write takes 2rq + 2wq + 2f + 2 = 8";
    says(
        &format!("{top}W 4 9\n"),
        &[
            &heading(0),
            "  fails: directories 1 and 2 have their number at top: the write may end SPENT",
            &format!("{NONE}; {whole}, of which 8 are left"),
        ],
    );
    says(
        &format!("{top}W 4 9\nD 1\nD 1\n"),
        &[
            &heading(1),
            "  fails: directory 2 has its number at top: the write may end SPENT",
            "  fails: it has read a number at top: the write can only end SPENT",
            &format!("{NONE}; {whole}, of which 6 are left"),
        ],
    );
}

/// A directory at top is passed over where another will do.
#[test]
fn ends_without_the_directory_at_top() {
    let two = (1..3).fold("S 4 3 1 0 2 2 3 7\n".to_string(), |text, client| drained(&format!("{text}W {client} 9\n")));
    // The third write has number 3, and its tag is at directory 1 alone.
    let third = format!("{two}W 3 9\nD 1\nD 1\nD 2\nD 1\nD 1\nD 1\nD 1\n");
    let since = lines(third.as_bytes()).count() + 1;
    says(
        &format!("{third}W 4 9\n"),
        &[
            &format!("client 3: write, open since line {}, phase 6, telling directories where the page is; 0 of 2 answered", since - 8),
            "  no premise fails",
            &format!("  3 deliveries end it: D 1, D 2, D 1; {WRITE_10}, of which 3 are left"),
            &format!("client 4: write, open since line {since}, phase 4, asking directories for the newest tag; 0 of 2 answered"),
            "  fails: directory 1 has its number at top: the write may end SPENT",
            &format!("  10 deliveries end it all the same: D 6, D 6, D 7, D 6, D 6, D 6, D 6, D 6, D 7, D 6; {WRITE_10}, of which 10 are left"),
        ],
    );
}

#[test]
fn says_of_each_phase_that_no_premise_fails() {
    const LIST: [&str; 12] = ["D 1", "D 1", "D 2", "D 1", "D 1", "D 1", "D 2", "D 1", "D 1", "D 1", "D 2", "D 1"];
    let read = "2rq + 2wq + 2 = 10";
    let write = "2rq + 2wq + 2f + 2 = 12";
    let phases = [
        (
            "read",
            3,
            "phase 1, asking directories for the newest tag; 1 of 2",
            "7 deliveries end it: D 1, D 1, D 1, D 2, D 1, D 1, D 1",
            read,
        ),
        (
            "read",
            5,
            "phase 2, telling directories the tag it read; 0 of 2",
            "5 deliveries end it: D 1, D 2, D 1, D 1, D 1",
            read,
        ),
        ("read", 8, "phase 3, asking replicas for the page; 0 of 1", "2 deliveries end it: D 1, D 1", read),
        (
            "write",
            3,
            "phase 4, asking directories for the newest tag; 1 of 2",
            "9 deliveries end it: D 1, D 1, D 1, D 2, D 1, D 1, D 1, D 2, D 1",
            write,
        ),
        (
            "write",
            5,
            "phase 5, sending the page to replicas; 0 of 2",
            "7 deliveries end it: D 1, D 2, D 1, D 1, D 1, D 2, D 1",
            write,
        ),
        (
            "write",
            9,
            "phase 6, telling directories where the page is; 0 of 2",
            "3 deliveries end it: D 1, D 2, D 1",
            write,
        ),
    ];
    for (name, made, phase, list, price) in phases {
        let start = if name == "read" { "R 1" } else { "W 1 9" };
        let left = list.split(' ').next().expect("a number");
        says(
            &many(&[&["S 1 3 3 1 2 2 99 7", start], &LIST[..made]].concat()),
            &[
                &format!("client 1: {name}, open since line 2, {phase} answered"),
                "  no premise fails",
                &format!("  {list}; by the theorem a whole {name} takes {price}, of which {left} are left"),
            ],
        );
    }
}

/// A machine that no calls lead to: two of its three requests are gone.
#[test]
fn says_that_it_is_ours() {
    let end = end(b"S 1 3 1 0 2 2 99 7\nR 1\n");
    let mut words: Box<Words> = end.words().into();
    copy::mail::clear(&mut words, 1);
    copy::mail::clear(&mut words, 2);
    let told = tell(&explain(&words, end.starts(), TRIES));
    let lines = [
        &format!("{READ_1} 2 answered"),
        "  no premise fails",
        &format!("  OURS: no premise fails, yet no deliveries can end it; {WHOLE_10}, of which 10 are left"),
    ];
    assert_eq!(told.text, many(&lines));
    assert!(told.ours);
    assert!(told.status().is_err());
}

/// The command itself: the sentences on standard output, and no failure.
#[test]
fn the_command_prints_it() {
    let file = std::path::Path::new(env!("CARGO_TARGET_TMPDIR")).join("why.txt");
    let input = "S 1 3 1 0 2 2 9 7\nR 1\nX 2 1\nX 2 3\n";
    std::fs::write(&file, input).expect("a file");
    let ran = std::process::Command::new(env!("CARGO_BIN_EXE_bench")).arg("why").arg(&file).output().expect("a run");
    assert_eq!(String::from_utf8_lossy(&ran.stdout), why(input.as_bytes()).text);
    assert!(ran.status.success() && ran.stderr.is_empty());
}
