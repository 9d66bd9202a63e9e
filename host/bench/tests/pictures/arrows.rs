//! A message's arrow starts where it was sent, whatever empties its slot.

use super::matter::all_sorts;
use super::shapes::{groups, members, shapes, stroke, Shape};
use bench::draw::{draw, picture};
use bench::rows::{COLUMN, LEFT, PER_ROW};
use bench::story::{story, Story};
use bench::underway::{Arrow, Fate, Underway};
use bench::view;
use copy::layout::{slot_at, SLOTS};
use copy::line::{parse, Call};
use copy::{Rehearsal, Words};

/// Columns of sending and of delivery, by a diary of the slots that knows the rules: the
/// delivered slot and those that were empty are filled by the call.
fn deliveries(input: &[u8]) -> Vec<(usize, usize)> {
    let mut machine = Rehearsal::new();
    let (mut sent, mut column, mut all) = ([0; SLOTS + 1], 0, Vec::new());
    for line in input.split_inclusive(|&byte| byte == b'\n').filter_map(|line| line.strip_suffix(b"\n")) {
        let before = view::waiting(machine.words());
        if !machine.step(line).answer.accepted() {
            continue;
        }
        let delivered = match parse(line) {
            Some(Call::Deliver { slot }) => slot,
            _ => 0,
        };
        if delivered > 0 {
            all.push((sent[delivered as usize], column));
        }
        let new =
            view::waiting(machine.words()).into_iter().filter(|slot| *slot == delivered || !before.contains(slot));
        new.for_each(|slot| sent[slot as usize] = column);
        column += 1;
    }
    all
}

fn sent_and_until(shape: &Shape) -> (usize, usize) {
    let read = |name| shape.word(name).and_then(|word| word.parse().ok()).expect("a column");
    (read("data-sent"), read("data-until"))
}

#[test]
fn arrows_begin_at_their_sending() {
    for input in all_sorts() {
        let all = shapes(&draw(&input).expect("a picture"));
        let arrows: Vec<usize> = groups(&all, "message");
        let arrived = arrows.iter().filter(|&&at| all[at].word("data-fate") != Some("waiting"));
        assert_eq!(arrived.map(|&at| sent_and_until(&all[at])).collect::<Vec<_>>(), deliveries(&input));
        for at in arrows {
            let (sent, _) = sent_and_until(&all[at]);
            let stroke = stroke(&all, at);
            let x = LEFT + ((sent % PER_ROW) as f64 + 0.5) * COLUMN;
            assert_eq!(stroke.number("x1"), Some(x), "{:?}", all[at]);
            assert!(in_row(&all, sent / PER_ROW, stroke.number("y1").expect("y1")), "{:?}", all[at]);
        }
    }
}

fn in_row(all: &[Shape], row: usize, y: f64) -> bool {
    let guide = members(all, groups(all, "row")[row]).into_iter().find(|shape| shape.is("guide")).expect("a guide");
    guide.number("y1").expect("y1") < y && y < guide.number("y2").expect("y2")
}

/// A set-up that is refused leaves the mail alone.
#[test]
fn a_refused_set_up_forgets_nothing() {
    let told = story(b"S 1 1 1 0 1 1 9 7\nR 1\nS 1 1 1 0 1 1 0 7\nT 1\nD 1\n").expect("a story");
    let first = told.arrows[0];
    assert_eq!((first.sent, first.until, first.fate), (1, 3, Fate::Taken));
}

#[test]
fn a_new_machine_forgets_the_mail() {
    let told = story(b"S 1 1 1 0 1 1 9 7\nR 1\nS 1 1 1 0 1 1 9 7\nR 1\nT 1\n").expect("a story");
    let ends: Vec<_> = told.arrows.iter().map(|arrow| (arrow.sent, arrow.until, arrow.fate)).collect();
    assert_eq!(ends, [(1, 2, Fate::Waiting), (3, 5, Fate::Waiting)]);
}

/// A machine with mail in slots 1, 2 and 3, seen from column 0 on.
fn asked() -> (Box<Words>, Underway) {
    let mut machine = Rehearsal::new();
    machine.step(b"S 2 3 1 0 2 2 99 7");
    machine.step(b"R 1");
    let mut underway = Underway::default();
    assert_eq!(underway.step(machine.words(), 0, None), []);
    (machine.words().into(), underway)
}

fn ends(arrows: &[Arrow]) -> Vec<(u32, usize, usize, Fate)> {
    arrows.iter().map(|arrow| (arrow.message.to, arrow.sent, arrow.until, arrow.fate)).collect()
}

/// No call of today empties a slot but a delivery, so this is done by hand.
#[test]
fn a_slot_emptied_otherwise_is_a_lost_message() {
    let (mut m, mut underway) = asked();
    copy::mail::clear(&mut m, 2);
    assert_eq!(ends(&underway.step(&m, 5, None)), [(2, 0, 5, Fate::Lost)]);
    m.copy_within(slot_at(&m, 1)..slot_at(&m, 2), slot_at(&m, 2));
    assert_eq!(underway.step(&m, 6, None), []);
    let left = underway.leave(9);
    assert_eq!(ends(&left), [(1, 0, 9, Fate::Waiting), (1, 6, 9, Fate::Waiting), (3, 0, 9, Fate::Waiting)]);
}

#[test]
fn a_message_replaced_is_lost_and_the_new_one_sent() {
    let (mut m, mut underway) = asked();
    m.copy_within(slot_at(&m, 1)..slot_at(&m, 2), slot_at(&m, 3));
    assert_eq!(ends(&underway.step(&m, 4, None)), [(3, 0, 4, Fate::Lost)]);
    assert_eq!(ends(&underway.leave(8))[2], (1, 4, 8, Fate::Waiting));
}

/// A delivery and a loss in one call; the delivered slot is filled again, even by an equal message.
#[test]
fn a_delivered_slot_begins_anew() {
    let (mut m, mut underway) = asked();
    copy::mail::clear(&mut m, 3);
    assert_eq!(ends(&underway.step(&m, 2, Some((1, Fate::Stale)))), [(1, 0, 2, Fate::Stale), (3, 0, 2, Fate::Lost)]);
    assert_eq!(ends(&underway.leave(7)), [(1, 2, 7, Fate::Waiting), (2, 0, 7, Fate::Waiting)]);
}

/// A lost message has its mark, and the legend a word for it where there is one.
#[test]
fn lost_messages_are_drawn() {
    let mut told: Story = story(b"S 1 1 1 0 1 1 9 7\nR 1\nT 1\nT 1\n").expect("a story");
    assert!(!picture(&told).contains("lost on its way"));
    told.arrows[0] = Arrow { until: 3, fate: Fate::Lost, ..told.arrows[0] };
    let all = shapes(&picture(&told));
    assert!(all.iter().any(|shape| shape.text == "lost on its way"));
    let stroke = stroke(&all, groups(&all, "message")[0]);
    assert_eq!((stroke.number("x1"), stroke.number("x2")), (Some(LEFT + 45.0), Some(LEFT + 105.0)));
}
