//! A machine in words: a sentence for each row, and where the newest page lies.

use crate::columns::{column_of, columns, lacks, party_at};
use crate::names::{doing, kind_name, listed, mark, parties, party_name, set, tag};
use crate::newest;
use crate::open::{enough, entries, up, Enough, Open};
use crate::story::ends_of;
use crate::view;
use copy::client::Client;
use copy::directory::Directory;
use copy::layout::*;
use copy::mail::Message;
use copy::{Numbers, Tag, Words};

/// What is said of a row, a slot or the whole.
#[derive(Clone, PartialEq, Eq, Debug)]
pub struct Sentence {
    /// "client 1", "slot 5", "newest page".
    pub subject: String,
    pub text: String,
}

impl Sentence {
    pub fn new(subject: impl Into<String>, text: impl Into<String>) -> Sentence {
        Sentence { subject: subject.into(), text: text.into() }
    }

    pub fn told(&self) -> String {
        format!("{}: {}", self.subject, self.text)
    }
}

/// The whole machine, in order; before a set-up there is none.
pub fn machine(m: &Words) -> Vec<Sentence> {
    let n = Numbers::read(m);
    if n.nc == 0 {
        return Vec::new();
    }
    let mut all = vec![Sentence::new("machine", numbers(&n)), Sentence::new("up", who_is_up(m, &n))];
    all.extend(rows(&n).map(|(party, id)| row(m, party, id)));
    all.extend(mail(m));
    all.extend(newest::sentences(m));
    all
}

/// Every party, in order; directories column by column.
pub fn rows(n: &Numbers) -> impl Iterator<Item = (Party, u32)> {
    let n = *n;
    let group = move |party| (1..=view::count_of(party, &n)).map(move |place| (party, party_at(&n, party, place)));
    [Party::Client, Party::Directory, Party::Replica].into_iter().flat_map(group)
}

/// What is said of one party.
pub fn row(m: &Words, party: Party, id: u32) -> Sentence {
    let text = match party {
        Party::Client => client(m, id),
        Party::Directory => directory(m, id),
        Party::Replica => replica(m, id),
    };
    let down = if view::is_down(m, party, id) { "down; " } else { "" };
    Sentence::new(format!("{} {id}", party_name(party)), format!("{down}{text}"))
}

pub fn numbers(n: &Numbers) -> String {
    let Numbers { nc, nd, nr, f, rq, wq, top, columns } = n;
    let (clients, replicas) = (parties_of(*nc, "client", "clients"), parties_of(*nr, "replica", "replicas"));
    let directories = parties_of(*nd, "directory", "directories");
    let (standing, quorums) = match columns {
        0 => (String::new(), format!("read quorum {rq}, write quorum {wq}")),
        _ => (
            format!(" in {}", parties_of(*columns, "column", "columns")),
            "read quorum one whole column, write quorum one of each column".to_string(),
        ),
    };
    format!("{clients}, {directories}{standing}, {replicas}; f {f}, {quorums}, top {top}")
}

fn parties_of(count: u32, one: &str, many: &str) -> String {
    format!("{count} {}", if count == 1 { one } else { many })
}

fn who_is_up(m: &Words, n: &Numbers) -> String {
    let groups = [(Party::Client, n.nc), (Party::Directory, n.nd), (Party::Replica, n.nr)];
    let down = groups.map(|(party, count)| (party, all(count) & !up(m, party, count)));
    let gone: Vec<String> =
        down.into_iter().filter(|(_, set)| *set != 0).map(|(party, set)| parties(party, set)).collect();
    match gone.is_empty() {
        true => "everybody".to_string(),
        false => format!("everybody but {}", gone.join(", ")),
    }
}

fn client(m: &Words, id: u32) -> String {
    match Open::of(m, id) {
        None => format!("idle, message number {}", Client::read(m, id).number),
        Some(open) => format!("{}; {}; {}", at_work(&open.row), waits(&open), knows(&open.row)),
    }
}

fn at_work(row: &Client) -> String {
    let Client { phase, number, page, .. } = row;
    let work = if *phase <= RRR { "reads".to_string() } else { format!("writes page {}", page[0]) };
    format!("{work}, phase {phase}, {}, message number {number}", doing(*phase))
}

fn waits(open: &Open) -> String {
    match enough(open.row.phase, &open.numbers) {
        Enough::Count(wanted) => waits_for_count(open, wanted),
        Enough::WholeColumn => answered_first(open, waits_for_column(open)),
        Enough::EachColumn => answered_first(open, waits_for_each_column(open)),
    }
}

fn waits_for_count(open: &Open, wanted: u32) -> String {
    let Open { row, numbers, .. } = open;
    let asked = match row.phase {
        RRR => row.set,
        WRW => all(numbers.nr),
        _ => all(numbers.nd),
    };
    let (missing, silent) = (wanted.saturating_sub(row.answered.count_ones()), asked & !row.answered);
    let some = if silent.count_ones() == missing { String::new() } else { format!("{missing} of ") };
    let waits = format!("waits for {some}{}", parties(open.party(), silent));
    if row.answered == 0 {
        waits
    } else {
        format!("{} of {wanted} answered: {}; {waits}", wanted - missing, set(row.answered))
    }
}

fn answered_first(open: &Open, waits: String) -> String {
    match open.row.answered {
        0 => waits,
        answered => format!("answered: {}; {waits}", set(answered)),
    }
}

/// Of the columns that are begun, who is still missing.
fn waits_for_column(open: &Open) -> String {
    let answered = open.row.answered;
    let begun = columns(&open.numbers).filter(|(_, column)| column & answered != 0);
    let lacking: Vec<String> = begun.map(|(j, column)| lacks(j, column & !answered)).collect();
    let which = if lacking.is_empty() { String::new() } else { format!(": {}", lacking.join(", ")) };
    format!("waits for one whole column{which}")
}

fn waits_for_each_column(open: &Open) -> String {
    let unmet = columns(&open.numbers).filter(|(_, column)| column & open.row.answered == 0);
    let names: Vec<String> = unmet.map(|(j, _)| j.to_string()).collect();
    match names.as_slice() {
        [only] => format!("waits for one of column {only}"),
        _ => format!("waits for one of each of columns {}", listed(&names)),
    }
}

/// What its tag and set mean in its phase.
fn knows(row: &Client) -> String {
    let (tag, set) = (tag(row.tag), parties(Party::Replica, row.set));
    match row.phase {
        RDR if row.set == 0 => "has heard no tag".to_string(),
        RDR => format!("has heard {tag} at {set}"),
        RDW => format!("tells {tag} at {set}"),
        RRR => format!("wants {tag} of {set}"),
        WDR => format!("has heard {tag}"),
        WRW => format!("its tag is {tag}"),
        _ => format!("its tag is {tag}, at {set}"),
    }
}

fn directory(m: &Words, id: u32) -> String {
    let (row, n) = (Directory::read(m, id), Numbers::read(m));
    let column = if n.columns == 0 { String::new() } else { format!("column {}; ", column_of(&n, id)) };
    format!("{column}tag {} at {}", tag(row.tag), parties(Party::Replica, row.set))
}

fn replica(m: &Words, id: u32) -> String {
    let kept: Vec<String> = entries(m, id).filter(|row| row[0] != FREE).map(entry).collect();
    let free = ENTRIES - kept.len();
    format!("{}; {free} of {ENTRIES} entries free", kept.join(", "))
}

fn entry(row: &[u32]) -> String {
    let state = if row[0] == SECURED { "secured" } else { "held" };
    format!("{} page {} {state}", tag(Tag::new(row[1], row[2])), row[4])
}

fn mail(m: &Words) -> Vec<Sentence> {
    let waiting = view::waiting(m);
    let mut all = vec![Sentence::new("mail", format!("{} of {SLOTS} slots", waiting.len()))];
    all.extend(waiting.into_iter().filter_map(|slot| {
        let message = view::message(m, slot)?;
        Some(Sentence::new(format!("slot {slot}"), sent(&message, bit(message.to))))
    }));
    all
}

/// A message to one or more receivers.
pub fn sent(message: &Message, receivers: u32) -> String {
    let ((from, sender), (to, _)) = ends_of(message);
    let kind = kind_name(message.kind);
    let ends = format!("{kind} from {} {sender} to {}", party_name(from), parties(to, receivers));
    std::iter::once(ends).chain(carried(message)).collect::<Vec<_>>().join(", ")
}

/// "Carried fields", in the paper's words; the set word of a read-ok is a mark.
fn carried(message: &Message) -> Vec<String> {
    let Message { kind, number, .. } = *message;
    let has = |kinds: &[u32], text: String| kinds.contains(&kind).then_some(text);
    let fields = [
        has(&[2, 4, 5, 7, 9, 10, 11, 12, 14, 15], format!("tag {}", tag(message.tag))),
        has(&[2, 4, 5], format!("set {}", set(message.set))),
        has(&[12], mark(message.set).to_string()),
        has(&[10, 12, 15], format!("page {}", message.page[0])),
        (![NOTICE, GOSSIP].contains(&kind)).then(|| format!("number {number}")),
    ];
    fields.into_iter().flatten().collect()
}
