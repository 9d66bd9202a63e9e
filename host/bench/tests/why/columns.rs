//! Each sentence of a machine in columns.

use super::sentences::{says, spent, NONE};
use bench::ending::{shortest, Ending, TRIES};
use bench::history::lines;
use bench::view;
use bench::why::{end, why};
use copy::layout::SLOTS;

const READ: &str = "client 1: read, open since line 2, phase 1, asking directories for the newest tag;";
const TELLS: &str = "client 1: read, open since line 2, phase 2, telling directories the tag it read;";

/// The last line of a read or a write, without its two spaces.
fn price(name: &str, whole: u32, left: u32) -> String {
    let f = if name == "read" { "" } else { " + 2f" };
    let are = if left == 1 { "is" } else { "are" };
    format!(
        "by the theorem a whole {name} takes 2 * column height + 2 * columns{f} + 2 = {whole}, of which {left} {are} left"
    )
}

#[test]
fn says_that_no_column_is_whole() {
    says(
        "C 1 6 1 0 2 99 7\nR 1\nX 2 1\nX 2 2\n",
        &[
            &format!("{READ} 0 of 3 answered in every column"),
            "  fails: no column has all its directories up: directories 1 and 2 are down",
            &format!("{NONE}; {}", price("read", 12, 12)),
        ],
    );
    // One that replied counts for reading, but its column lacks another.
    says(
        "C 1 6 1 0 2 99 7\nR 1\nD 1\nX 2 1\nX 2 3\nX 2 2\n",
        &[
            &format!("{READ} 0 of 3 answered in every column"),
            "  fails: no column has all its directories up: directories 1, 2 and 3 are down, and directory 1 replied before",
            &format!("{NONE}; {}", price("read", 12, 11)),
        ],
    );
    // Where it lacks none, nothing fails: directory 1 has answered, and 3 and 5 are up.
    says(
        "C 1 6 1 0 2 99 7\nR 1\nD 1\nD 1\nX 2 1\nX 2 2\n",
        &[
            &format!("{READ} 1 of 3 answered in column 0"),
            "  no premise fails",
            &format!(
                "  10 deliveries end it: D 3, D 1, D 5, D 1, D 5, D 5, D 7, D 5, D 5, D 5; {}",
                price("read", 12, 10)
            ),
        ],
    );
}

#[test]
fn says_which_column_is_down() {
    says(
        "C 1 6 1 0 2 99 7\nR 1\nX 2 2\nX 2 4\nX 2 6\n",
        &[
            &format!("{READ} 0 of 3 answered in every column"),
            "  fails: column 1 has no directory up: directories 2, 4 and 6 are down",
            &format!("{NONE}; {}", price("read", 12, 12)),
        ],
    );
    // Columns of one directory: each that is down is a column that is down, and nobody else reads.
    says(
        "C 1 2 1 0 2 99 7\nR 1\nX 2 1\nX 2 2\n",
        &[
            &format!("{READ} 0 of 1 answered in every column"),
            "  fails: no column has all its directories up: directories 1 and 2 are down",
            "  fails: column 0 has no directory up: directory 1 is down",
            "  fails: column 1 has no directory up: directory 2 is down",
            &format!("{NONE}; {}", price("read", 8, 8)),
        ],
    );
}

/// Directories 1 and 4 have been read, and 2 has answered in the second phase.
const TOLD_ONE: &str = "C 1 6 1 0 3 99 7\nR 1\nD 1\nD 1\nD 4\nD 1\nD 4\nD 4\n";

#[test]
fn counts_who_answered_in_columns() {
    let heading = format!("{TELLS} 1 of 3 columns answered");
    says(
        &format!("{TOLD_ONE}X 2 2\nX 2 5\nX 2 1\nX 2 3\n"),
        &[
            &heading,
            "  no premise fails",
            &format!("  6 deliveries end it: D 8, D 4, D 10, D 4, D 4, D 4; {}", price("read", 12, 6)),
        ],
    );
    says(
        &format!("{TOLD_ONE}X 2 2\nX 2 5\nX 2 1\nX 2 4\nX 2 3\n"),
        &[
            &heading,
            "  fails: column 0 has no directory up: directories 1 and 4 are down",
            &format!("{NONE}; {}", price("read", 12, 6)),
        ],
    );
}

/// What is left is counted by a column that can still be whole: 1 answered in vain.
#[test]
fn leaves_a_column_that_cannot_be_whole() {
    says(
        "C 1 4 1 0 2 99 7\nR 1\nD 1\nD 1\nX 2 3\n",
        &[
            &format!("{READ} 1 of 2 answered in column 0"),
            "  no premise fails",
            &format!(
                "  10 deliveries end it: D 2, D 1, D 4, D 1, D 1, D 1, D 2, D 1, D 1, D 1; {}",
                price("read", 10, 10)
            ),
        ],
    );
}

/// What is told where so many slots are empty, some way into an operation.
fn with_empty_slots(start: &str, made: usize, empty: usize) -> String {
    let mut text = format!("C 1 2 2 0 2 99 7\n{start}\n");
    let Ending::Found(list) = shortest(end(text.as_bytes()).words(), 1, TRIES) else { panic!("{text}: no list") };
    text.extend(list[..made].iter().map(|slot| format!("D {slot}\n")));
    let waiting = view::waiting(end(text.as_bytes()).words()).len();
    why(format!("{text}{}", "G 1 2\n".repeat(SLOTS - waiting - empty)).as_bytes()).text
}

/// 43 before the start: 16 + 7 + 16 + 4.
#[test]
fn says_that_slots_are_few_in_columns() {
    let phases = [("R 1", 0, 27), ("R 1", 2, 12), ("R 1", 6, 6), ("W 1 9", 0, 27), ("W 1 9", 2, 21), ("W 1 9", 4, 6)];
    for (phase, (start, made, wanted)) in (1..).zip(phases) {
        let few = with_empty_slots(start, made, wanted - 1);
        let fails = format!("  fails: {} empty slots; {wanted} are wanted in this phase\n", wanted - 1);
        assert!(few.contains(&format!("phase {phase}")) && few.contains(&fails), "{few}");
        let enough = with_empty_slots(start, made, wanted);
        assert!(enough.contains("  no premise fails\n"), "{enough}");
    }
}

#[test]
fn says_that_a_whole_column_is_at_top() {
    let two = spent("C 4 2 1 0 1 3 7");
    let since = lines(two.as_bytes()).count() + 1;
    says(
        &format!("{two}W 4 9\n"),
        &[
            &format!("client 4: write, open since line {since}, phase 4, asking directories for the newest tag; 0 of 2 answered in every column"),
            "  fails: directories 1 and 2 have their number at top: the write may end SPENT",
            &format!("{NONE}; {}", price("write", 8, 8)),
        ],
    );
}

#[test]
fn says_of_each_phase_in_columns_that_no_premise_fails() {
    const LIST: [&str; 14] =
        ["D 1", "D 1", "D 3", "D 1", "D 5", "D 1", "D 1", "D 1", "D 3", "D 1", "D 1", "D 1", "D 3", "D 1"];
    let phases = [
        (0, "phase 4, asking directories for the newest tag; 0 of 3 answered in every column"),
        (3, "phase 4, asking directories for the newest tag; 1 of 3 answered in column 0"),
        (6, "phase 5, sending the page to replicas; 0 of 2 answered"),
        (9, "phase 5, sending the page to replicas; 1 of 2 answered"),
        (10, "phase 6, telling directories where the page is; 0 of 2 columns answered"),
        (12, "phase 6, telling directories where the page is; 1 of 2 columns answered"),
    ];
    for (made, phase) in phases {
        let lines: String = LIST[..made].iter().map(|line| format!("{line}\n")).collect();
        let (rest, left) = (LIST[made..].join(", "), LIST.len() - made);
        says(
            &format!("C 1 6 3 1 2 99 7\nW 1 9\n{lines}"),
            &[
                &format!("client 1: write, open since line 2, {phase}"),
                "  no premise fails",
                &format!("  {left} deliveries end it: {rest}; {}", price("write", 14, left as u32)),
            ],
        );
    }
}

/// Lines go to the machine of the last accepted set-up.
#[test]
fn asks_the_machine_in_force() {
    let refused = "C 1 6 1 0 4 99 7\n";
    let read = "S 1 1 1 0 1 1 9 7\nR 1\n";
    let of_base = why(read.as_bytes()).text;
    assert_eq!(why(format!("{read}{refused}").as_bytes()).text, of_base);
    says(&format!("{read}C 1 6 1 0 3 99 7\n"), &["no operation is open"]);
    let after_columns = why(format!("C 1 6 1 0 3 99 7\nR 1\n{read}").as_bytes()).text;
    assert_eq!(after_columns, of_base.replace("line 2", "line 4"));
}
