//! What an answer means: the code by name, and why this call got it on this machine.

use crate::names::{self, party_name, tag};
use crate::open::empty_slots;
use crate::view;
use crate::words;
use copy::answer::*;
use copy::client::Client;
use copy::layout::*;
use copy::line::{Call, LONGEST};
use copy::mail::Message;
use copy::numbers::within;
use copy::{Numbers, Shown, Tag, Words};

/// "21 WORN: client 1 has fewer than three message numbers left".
pub fn meaning(m: &Words, call: Call, shown: &Shown) -> String {
    let code = shown.answer.code;
    let why = match code {
        DONE => done(m, call),
        READ_ENDED | WRITE_ENDED | WRITE_SPENT => ended(m, shown),
        DROPPED => delivered(m, call, |message| format!("{} is down; the message is gone", receiver(message))),
        STALE => delivered(m, call, |message| stale(&Client::read(m, message.to), message)),
        SIZE => "the buffer or the page has the wrong length".to_string(),
        BAD_MACHINE => "no set-up has been accepted yet".to_string(),
        BAD_ARGUMENT => bad_argument(&Numbers::read(m), call).unwrap_or_default(),
        DOWN => format!("{} is down", asked_party(call)),
        BUSY => format!("{} is not idle: {}", asked_party(call), doing(m, call)),
        WORN => format!("{} has fewer than three message numbers left", asked_party(call)),
        EMPTY => "the slot is empty".to_string(),
        FULL => {
            delivered(m, call, |message| format!("{} has no free entry for {}", receiver(message), tag(message.tag)))
        }
        NO_SLOT => no_slot(m, call),
        _ => "no listed code".to_string(),
    };
    format!("{}: {why}", names::code(code))
}

/// Why a line is no call.
pub fn malformed(line: Option<&[u8]>) -> String {
    let why = match line {
        None => "the last line has no end".to_string(),
        Some([]) => "the line is empty".to_string(),
        Some(line) if line.len() > LONGEST => format!("the line has {} bytes; {LONGEST} are the most", line.len()),
        Some([b'S' | b'C' | b'R' | b'W' | b'D' | b'G' | b'T' | b'X', ..]) => {
            "its fields are not those of its letter".to_string()
        }
        Some(_) => "it begins with none of S, C, R, W, D, G, T, X".to_string(),
    };
    format!("{}: {why}", names::code(BAD_ARGUMENT))
}

fn done(m: &Words, call: Call) -> String {
    match call {
        Call::SetUp { numbers, word, .. } => format!("a new machine: {}; first page {word}", words::numbers(&numbers)),
        Call::Read { client } => format!("client {client} starts a read"),
        Call::Write { client, word } => format!("client {client} starts to write page {word}"),
        Call::Deliver { .. } => delivered(m, call, |message| format!("{} takes it", receiver(message))),
        Call::Gossip { from, to } => format!("replica {from} gossips to replica {to}"),
        Call::Tidy { replica } => format!("replica {replica} frees what is older than its newest secured page"),
        Call::Crash { .. } => format!("{} goes down", asked_party(call)),
    }
}

fn ended(m: &Words, shown: &Shown) -> String {
    let Answer { code, client, tag: ended, .. } = shown.answer;
    match code {
        READ_ENDED => read_ended(shown, Client::read(m, client).tag),
        WRITE_ENDED => format!("the write of client {client} ends with tag {}", tag(ended)),
        _ => format!(
            "client {client} has heard the number {}, which is top: its write is not done",
            Numbers::read(m).top
        ),
    }
}

/// `asked` is the tag that the read's client wanted of the replicas.
pub fn read_ended(shown: &Shown, asked: Tag) -> String {
    let Answer { client, tag: ended, mark, .. } = shown.answer;
    let which = match mark {
        NEWER => format!("newer than the {} that it had asked for", tag(asked)),
        _ => names::mark(mark).to_string(),
    };
    format!("the read of client {client} ends with page {}, tag {}, {which}", shown.word, tag(ended))
}

fn delivered(m: &Words, call: Call, say: impl Fn(&Message) -> String) -> String {
    view::arriving(m, call).as_ref().map_or(String::new(), say)
}

fn receiver(message: &Message) -> String {
    format!("{} {}", party_name(ends(message.kind).1), message.to)
}

fn stale(row: &Client, message: &Message) -> String {
    let client = receiver(message);
    if row.phase == IDLE {
        format!("{client} is idle and waits for nothing")
    } else if message.number != row.number {
        format!("{client} is at message number {} and no longer waits for {}", row.number, message.number)
    } else {
        format!("{client} has the answer of {} {} already", party_name(ends(message.kind).0), message.from)
    }
}

/// The party that must be up, or idle, for a call.
fn asked_party(call: Call) -> String {
    match call {
        Call::Read { client } | Call::Write { client, .. } => format!("client {client}"),
        Call::Gossip { from, .. } => format!("replica {from}"),
        Call::Tidy { replica } => format!("replica {replica}"),
        Call::Crash { kind, id } => format!("{} {id}", view::party_of(kind).map_or("party", party_name)),
        Call::SetUp { .. } | Call::Deliver { .. } => "nobody".to_string(),
    }
}

fn doing(m: &Words, call: Call) -> &'static str {
    match call {
        Call::Read { client } | Call::Write { client, .. } => names::doing(Client::read(m, client).phase),
        _ => "",
    }
}

/// What is out of range in a call on a machine of these numbers, if anything is.
pub fn bad_argument(n: &Numbers, call: Call) -> Option<String> {
    let missing = |party, id| {
        let count = view::count_of(party, n);
        (!within(id, count)).then(|| format!("there is no {} {id}: they are 1 to {count}", party_name(party)))
    };
    let itself = |from, to| (from == to).then(|| "a replica does not gossip to itself".to_string());
    match call {
        Call::SetUp { layout, numbers, .. } => out_of_range(layout, &numbers).map(String::from),
        Call::Read { client } | Call::Write { client, .. } => missing(Party::Client, client),
        Call::Deliver { slot } if within(slot, SLOTS as u32) => None,
        Call::Deliver { slot } => Some(format!("there is no slot {slot}: they are 1 to {SLOTS}")),
        Call::Gossip { from, to } => missing(Party::Replica, from).or(missing(Party::Replica, to)).or(itself(from, to)),
        Call::Tidy { replica } => missing(Party::Replica, replica),
        Call::Crash { kind, id } => match view::party_of(kind) {
            Some(party) => missing(party, id),
            None => Some(format!("there is no kind {kind}: 1 client, 2 directory, 3 replica")),
        },
    }
}

/// The first rule of the ranges that a set-up breaks.
fn out_of_range(layout: Layout, n: &Numbers) -> Option<&'static str> {
    let parties = [
        (within(n.nc, CLIENTS as u32), "clients are 1 to 8"),
        directories(layout, n),
        (within(n.nr, REPLICAS as u32), "replicas are 1 to 7"),
        (n.f <= 3, "f is 0 to 3"),
        (n.f.saturating_mul(2) < n.nr, "2f + 1 is more than the replicas"),
    ];
    let top = (n.top >= 3, "top is 3 or more");
    let rules = parties.into_iter().chain(quorums(layout, n)).chain([top]);
    rules.into_iter().find(|(kept, _)| !kept).map(|(_, rule)| rule)
}

fn directories(layout: Layout, n: &Numbers) -> (bool, &'static str) {
    match layout {
        Layout::Base => (within(n.nd, DIRECTORIES as u32), "directories are 1 to 5"),
        Layout::Wide => (n.nd >= 2 && n.nd <= WIDE_DIRECTORIES as u32, "directories in columns are 2 to 16"),
    }
}

fn quorums(layout: Layout, n: &Numbers) -> [(bool, &'static str); 4] {
    match layout {
        Layout::Base => [
            (n.columns == 0, "there are no columns beside a read and a write quorum"),
            (within(n.rq, n.nd), "the read quorum is 1 to the number of directories"),
            (within(n.wq, n.nd), "the write quorum is 1 to the number of directories"),
            (n.rq.saturating_add(n.wq) > n.nd, "read and write quorum together are not more than the directories"),
        ],
        Layout::Wide => [
            (n.rq == 0, "there is no read quorum beside columns"),
            (n.wq == 0, "there is no write quorum beside columns"),
            (within(n.columns, n.nd), "the columns are 1 to the number of directories"),
            (n.nd.checked_rem(n.columns) == Some(0), "the directories do not stand in equal columns"),
        ],
    }
}

fn no_slot(m: &Words, call: Call) -> String {
    let (freed, counted) = match call {
        Call::Deliver { .. } => (1, ", its own counted"),
        _ => (0, ""),
    };
    let empty = empty_slots(m) + freed;
    format!("it would send more messages than there are empty slots: {empty}{counted}")
}
