//! Which copy of the page is the newest, and where it lies.

use crate::names::{commas, parties, tag};
use crate::open::{entries, members};
use crate::tell::in_slots;
use crate::view;
use crate::words::Sentence;
use copy::client::Client;
use copy::directory::Directory;
use copy::layout::*;
use copy::{Numbers, Tag, Words};

/// Where the page of one tag lies: sets of replicas, slots, and who knows of it.
#[derive(Clone, PartialEq, Eq, Debug, Default)]
pub struct Copies {
    pub tag: Tag,
    pub word: u32,
    pub secured: u32,
    pub held: u32,
    pub slots: Vec<u32>,
    /// The client that is writing it, with a tag chosen.
    pub writer: Option<u32>,
    pub directories: u32,
}

/// One place where a page lies.
enum Place {
    Entry { replica: u32, state: u32 },
    Slot(u32),
    Writer(u32),
}

/// The newest page of all; where its write is still under way, also the newest of the others.
pub fn sentences(m: &Words) -> Vec<Sentence> {
    let under_way: Vec<Tag> = writers(m).map(|(_, row)| row.tag).collect();
    let newest_of_all = newest(m, &[]);
    let of_the_others =
        newest_of_all.as_ref().filter(|one| under_way.contains(&one.tag)).and_then(|_| newest(m, &under_way));
    let all = [("newest page", newest_of_all), ("newest page but for writes under way", of_the_others)];
    all.into_iter().filter_map(|(subject, copies)| Some(Sentence::new(subject, copies?.told(m)))).collect()
}

/// The copies of the greatest tag that is not among `but`.
pub fn newest(m: &Words, but: &[Tag]) -> Option<Copies> {
    let places: Vec<(Tag, u32, Place)> = places(m).into_iter().filter(|(tag, ..)| !but.contains(tag)).collect();
    let (tag, word, _) = places.iter().max_by_key(|(tag, ..)| *tag)?;
    let mut copies = Copies { tag: *tag, word: *word, directories: naming(m, *tag), ..Copies::default() };
    for (_, _, place) in places.iter().filter(|(other, ..)| other == tag) {
        match *place {
            Place::Entry { replica, state: SECURED } => copies.secured |= bit(replica),
            Place::Entry { replica, .. } => copies.held |= bit(replica),
            Place::Slot(slot) => copies.slots.push(slot),
            Place::Writer(client) => copies.writer = Some(client),
        }
    }
    Some(copies)
}

fn places(m: &Words) -> Vec<(Tag, u32, Place)> {
    let nr = Numbers::read(m).nr;
    let kept = (1..=nr).flat_map(|replica| {
        let used = entries(m, replica).filter(|row| row[0] != FREE);
        used.map(move |row| (Tag::new(row[1], row[2]), row[4], Place::Entry { replica, state: row[0] }))
    });
    let mail = view::waiting(m).into_iter().filter_map(|slot| {
        let message = view::message(m, slot).filter(|message| [WRITE, READ_OK, GOSSIP].contains(&message.kind))?;
        Some((message.tag, message.page[0], Place::Slot(slot)))
    });
    let written = writers(m).map(|(id, row)| (row.tag, row.page[0], Place::Writer(id)));
    kept.chain(mail).chain(written).collect()
}

/// Clients whose write has chosen its tag and is not ended.
fn writers(m: &Words) -> impl Iterator<Item = (u32, Client)> + '_ {
    let rows = (1..=Numbers::read(m).nc).map(|id| (id, Client::read(m, id)));
    rows.filter(|(_, row)| [WRW, WDW].contains(&row.phase))
}

fn naming(m: &Words, tag: Tag) -> u32 {
    (1..=Numbers::read(m).nd).filter(|&id| Directory::read(m, id).tag == tag).map(bit).sum()
}

impl Copies {
    fn told(&self, m: &Words) -> String {
        let places: Vec<String> = [
            at("secured at", self.secured, m),
            at("held at", self.held, m),
            self.on_its_way(),
            (self.secured | self.held == 0 && self.slots.is_empty()).then(|| "at its client alone".to_string()),
            Some(format!("named by {}", parties(Party::Directory, self.directories))),
        ]
        .into_iter()
        .flatten()
        .collect();
        format!("{}, tag {}, {}: {}", self.word, tag(self.tag), self.origin(m), places.join("; "))
    }

    fn origin(&self, m: &Words) -> String {
        match self.writer {
            _ if self.tag == Tag::FIRST => "the first page".to_string(),
            Some(id) if view::is_down(m, Party::Client, id) => {
                format!("of a write that client {id} left undone")
            }
            Some(id) => format!("being written by client {id}"),
            None => format!("written by client {}", self.tag.client),
        }
    }

    fn on_its_way(&self) -> Option<String> {
        (!self.slots.is_empty()).then(|| format!("on its way in {}", in_slots(&self.slots)))
    }
}

/// Replicas that are down keep their copy, but nobody can have it.
fn at(how: &str, set: u32, m: &Words) -> Option<String> {
    let down: u32 = members(set).filter(|&id| view::is_down(m, Party::Replica, id)).map(bit).sum();
    let replicas = parties(Party::Replica, set);
    match (set, down) {
        (0, _) => None,
        (_, 0) => Some(format!("{how} {replicas}")),
        _ if down == set => Some(format!("{how} {replicas} (down)")),
        _ => Some(format!("{how} {replicas} ({} down)", commas(down))),
    }
}
