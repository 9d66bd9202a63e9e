//! What a read's mark says, on the copy's own machine; and that a false one is mostly seen.

use bench::compare::copy_output;
use bench::history::{lines, Printed};
use bench::order::check;
use bench::schedule;
use bench::view;
use copy::answer::{EXACT, NEWER, READ_ENDED};
use copy::client::Client;
use copy::layout::{ends, Party};
use copy::line::parse;
use copy::{Answer, Layout, Rehearsal, Tag, Words};

/// The tag of the client to whom a line delivers: in a read's last phase the one that it asked for.
fn tag_of_receiver(m: &Words, line: &[u8]) -> Option<Tag> {
    let reply = view::arriving(m, parse(line)?).filter(|message| ends(message.kind).1 == Party::Client)?;
    Some(Client::read(m, reply.to).tag)
}

/// 1 is the very tag asked for, 0 a greater one, and no other answer has a mark.
#[test]
fn marks_tell_the_tag_asked_for() {
    let mut seen = [[0; 2]; 2];
    for seed in 0..1500 {
        let mut machine = Rehearsal::new();
        for line in lines(&schedule(seed, 400)) {
            let asked = tag_of_receiver(machine.words(), line);
            let Answer { code, tag, mark, .. } = machine.step(line).answer;
            let right = match (code, mark) {
                (READ_ENDED, EXACT) => asked == Some(tag),
                (READ_ENDED, NEWER) => asked.is_some_and(|asked| tag > asked),
                _ => mark == 0 && code != READ_ENDED,
            };
            assert!(right, "seed {seed}, {}: {tag:?} {mark} for {asked:?}", line.escape_ascii());
            if code == READ_ENDED {
                let wide = Layout::of(machine.words()) == Layout::Wide;
                seen[usize::from(wide)][mark as usize] += 1;
            }
        }
    }
    let [base, wide] = seen;
    println!("by counts {} exact and {} newer, in columns {} and {}", base[1], base[0], wide[1], wide[0]);
    assert!(base[0] > 200 && base[1] > 2000, "{base:?}");
    assert!(wide[0] > 50 && wide[1] > 400, "{wide:?}");
}

/// Places of the marks of ended reads that say the tag asked for: each is the last digit of its line.
fn exact_marks(output: &[u8]) -> Vec<usize> {
    let ends = (0..output.len()).filter(|&at| output[at] == b'\n');
    let exact = |printed: Printed| printed.code == READ_ENDED && printed.mark == EXACT;
    let all = ends.zip(lines(output).filter_map(Printed::parse));
    all.filter(|(_, printed)| exact(*printed)).map(|(end, _)| end - 1).collect()
}

/// A read that says 0 for 1 is believed only where a newer page could have come while it went on.
#[test]
fn false_marks_are_refused() {
    let (mut turned, mut refused) = (0, 0);
    for seed in 0..200 {
        let input = schedule(seed, 400);
        let mut output = copy_output(&input);
        for at in exact_marks(&output) {
            output[at] = b'0';
            refused += usize::from(check(&input, &output).is_err());
            output[at] = b'1';
            turned += 1;
        }
    }
    println!("{refused} of {turned} false marks refused");
    assert!(turned > 300 && refused * 3 > turned * 2, "{refused} of {turned}");
}
