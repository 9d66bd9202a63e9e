//! The eight calls, on either layout. Each refuses with the lowest code that applies and then changes nothing.

use crate::answer::*;
use crate::client::{Client, Outcome};
use crate::directory::Directory;
use crate::good;
use crate::layout::*;
use crate::mail::{self, Message, Send};
use crate::numbers::{within, Numbers};
use crate::replica::{self, Change};
use crate::tag::Tag;

/// The machine in a lent buffer, with its numbers, or the code that refuses it.
fn open(layout: Layout, buffer: &mut [u32]) -> Result<(&mut Words, Numbers), u32> {
    let m = machine(layout, buffer).ok_or(SIZE)?;
    let n = good::numbers(m).ok_or(BAD_MACHINE)?;
    Ok((m, n))
}

fn machine(layout: Layout, buffer: &mut [u32]) -> Option<&mut Words> {
    buffer.get_mut(..layout.words())
}

fn refuse_if(refused: bool, code: u32) -> Result<(), u32> {
    if refused {
        Err(code)
    } else {
        Ok(())
    }
}

fn answer(result: Result<Answer, u32>) -> Answer {
    result.unwrap_or_else(Answer::bare)
}

fn is_down(m: &Words, party: Party, id: u32) -> bool {
    m[down_at(m, party, id)] != 0
}

pub fn set_up(layout: Layout, buffer: &mut [u32], numbers: Numbers, page: &[u32]) -> Answer {
    answer(try_set_up(layout, buffer, numbers, page))
}

fn try_set_up(layout: Layout, buffer: &mut [u32], n: Numbers, page: &[u32]) -> Result<Answer, u32> {
    let m = machine(layout, buffer).ok_or(SIZE)?;
    let page: &Page = page.try_into().map_err(|_| SIZE)?;
    refuse_if(!n.in_range(layout), BAD_ARGUMENT)?;
    m.fill(0);
    n.write(m);
    for id in 1..=n.nr {
        replica::put(m, id, 0, SECURED, Tag::FIRST, page);
    }
    for id in 1..=n.nd {
        Directory { tag: Tag::FIRST, set: all(n.nr) }.write(m, id);
    }
    Ok(Answer::bare(DONE))
}

pub fn start_read(layout: Layout, buffer: &mut [u32], client: u32) -> Answer {
    answer(start(layout, buffer, client, RDR, &[0; PAGE]))
}

pub fn start_write(layout: Layout, buffer: &mut [u32], client: u32, page: &[u32]) -> Answer {
    let started = match page.try_into() {
        Ok(page) => start(layout, buffer, client, WDR, page),
        Err(_) => Err(SIZE),
    };
    answer(started)
}

fn start(layout: Layout, buffer: &mut [u32], id: u32, phase: u32, page: &Page) -> Result<Answer, u32> {
    let (m, n) = open(layout, buffer)?;
    refuse_if(!within(id, n.nc), BAD_ARGUMENT)?;
    let row = Client::read(m, id);
    refuse_if(row.down != 0, DOWN)?;
    refuse_if(row.phase != IDLE, BUSY)?;
    refuse_if(u64::from(row.number) + 3 > u64::from(n.top), WORN)?;
    let (row, send) = row.start(id, phase, page, n.nd);
    refuse_if(!mail::fits(m, &send, 0), NO_SLOT)?;
    row.write(m, id);
    mail::place(m, &send);
    Ok(Answer::bare(DONE))
}

pub fn deliver(layout: Layout, buffer: &mut [u32], slot: u32, page: &mut [u32]) -> Answer {
    answer(try_deliver(layout, buffer, slot, page))
}

fn try_deliver(layout: Layout, buffer: &mut [u32], slot: u32, page: &mut [u32]) -> Result<Answer, u32> {
    refuse_if(page.len() != PAGE, SIZE)?;
    let (m, n) = open(layout, buffer)?;
    refuse_if(!within(slot, SLOTS as u32), BAD_ARGUMENT)?;
    refuse_if(m[slot_at(m, slot)] == 0, EMPTY)?;
    let message = mail::read(m, slot);
    let (_, receiver) = ends(message.kind);
    if is_down(m, receiver, message.to) {
        mail::clear(m, slot);
        return Ok(Answer::bare(DROPPED));
    }
    match receiver {
        Party::Directory => to_directory(m, &n, slot, &message),
        Party::Replica => to_replica(m, &n, slot, &message),
        Party::Client => to_client(m, &n, slot, &message, page),
    }
}

/// Empties the delivered slot and sends, or refuses before anything changed.
fn exchange(m: &mut Words, slot: u32, send: Option<&Send>) -> Result<(), u32> {
    if let Some(send) = send {
        refuse_if(!mail::fits(m, send, 1), NO_SLOT)?;
    }
    mail::clear(m, slot);
    if let Some(send) = send {
        mail::place(m, send);
    }
    Ok(())
}

fn to_directory(m: &mut Words, n: &Numbers, slot: u32, message: &Message) -> Result<Answer, u32> {
    let (row, send) = Directory::read(m, message.to).take(message, n.f);
    exchange(m, slot, send.as_ref())?;
    row.write(m, message.to);
    Ok(Answer::bare(DONE))
}

fn to_replica(m: &mut Words, n: &Numbers, slot: u32, message: &Message) -> Result<Answer, u32> {
    let (change, send) = replica::entries(m, message.to).take(message, n.nd);
    refuse_if(change == Change::Full, FULL)?;
    exchange(m, slot, send.as_ref())?;
    replica::apply(m, message.to, change, message);
    Ok(Answer::bare(DONE))
}

fn to_client(m: &mut Words, n: &Numbers, slot: u32, message: &Message, page: &mut [u32]) -> Result<Answer, u32> {
    let id = message.to;
    let row = Client::read(m, id);
    let outcome = row.take(message, n);
    let send = match &outcome {
        Outcome::Next(_, send) | Outcome::WriteEnded(send) => Some(send),
        _ => None,
    };
    exchange(m, slot, send)?;
    let after = match &outcome {
        Outcome::Stale => return Ok(Answer::bare(STALE)),
        Outcome::Waiting(next) | Outcome::Next(next, _) => *next,
        _ => row.idle(),
    };
    after.write(m, id);
    Ok(match outcome {
        Outcome::ReadEnded => {
            page.copy_from_slice(&message.page);
            Answer { code: READ_ENDED, client: id, tag: message.tag, mark: message.set }
        }
        Outcome::WriteEnded(_) => Answer { client: id, tag: row.tag, ..Answer::bare(WRITE_ENDED) },
        Outcome::Spent => Answer { client: id, ..Answer::bare(WRITE_SPENT) },
        _ => Answer::bare(DONE),
    })
}

pub fn gossip(layout: Layout, buffer: &mut [u32], from: u32, to: u32) -> Answer {
    answer(try_gossip(layout, buffer, from, to))
}

fn try_gossip(layout: Layout, buffer: &mut [u32], from: u32, to: u32) -> Result<Answer, u32> {
    let (m, n) = open(layout, buffer)?;
    refuse_if(!within(from, n.nr) || !within(to, n.nr) || from == to, BAD_ARGUMENT)?;
    refuse_if(is_down(m, Party::Replica, from), DOWN)?;
    let (tag, page) = replica::entries(m, from).highest();
    let send = Message::new(GOSSIP, from, 0).tagged(tag).with_page(page).to_one(to);
    refuse_if(!mail::fits(m, &send, 0), NO_SLOT)?;
    mail::place(m, &send);
    Ok(Answer::bare(DONE))
}

pub fn tidy(layout: Layout, buffer: &mut [u32], id: u32) -> Answer {
    answer(try_tidy(layout, buffer, id))
}

fn try_tidy(layout: Layout, buffer: &mut [u32], id: u32) -> Result<Answer, u32> {
    let (m, n) = open(layout, buffer)?;
    refuse_if(!within(id, n.nr), BAD_ARGUMENT)?;
    refuse_if(is_down(m, Party::Replica, id), DOWN)?;
    replica::tidy(m, id);
    Ok(Answer::bare(DONE))
}

pub fn crash(layout: Layout, buffer: &mut [u32], kind: u32, id: u32) -> Answer {
    answer(try_crash(layout, buffer, kind, id))
}

fn try_crash(layout: Layout, buffer: &mut [u32], kind: u32, id: u32) -> Result<Answer, u32> {
    let (m, n) = open(layout, buffer)?;
    let (party, count) = match kind {
        1 => (Party::Client, n.nc),
        2 => (Party::Directory, n.nd),
        3 => (Party::Replica, n.nr),
        _ => return Err(BAD_ARGUMENT),
    };
    refuse_if(!within(id, count), BAD_ARGUMENT)?;
    refuse_if(is_down(m, party, id), DOWN)?;
    m[down_at(m, party, id)] = 1;
    Ok(Answer::bare(DONE))
}

pub fn report(layout: Layout, buffer: &mut [u32]) -> Report {
    match open(layout, buffer) {
        Ok((m, n)) => Report { code: DONE, waiting: mail::waiting(m), down: parties_down(m, &n) },
        Err(code) => Report { code, waiting: 0, down: 0 },
    }
}

fn parties_down(m: &Words, n: &Numbers) -> u32 {
    let sum = |party, count| (1..=count).map(|id| m[down_at(m, party, id)]).sum::<u32>();
    sum(Party::Client, n.nc) + sum(Party::Directory, n.nd) + sum(Party::Replica, n.nr)
}
