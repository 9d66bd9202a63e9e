//! The messages on their way: what each slot holds, and the column in which it was sent.

use crate::view;
use copy::layout::SLOTS;
use copy::mail::Message;
use copy::Words;

#[derive(Clone, Copy, PartialEq, Eq, Debug)]
pub enum Fate {
    Taken,
    Stale,
    Dropped,
    /// Gone from its slot without a delivery.
    Lost,
    Waiting,
}

/// A message from the column of its sending to that of its end; one that still waits ends
/// one column behind its machine.
#[derive(Clone, Copy, PartialEq, Eq, Debug)]
pub struct Arrow {
    pub message: Message,
    pub sent: usize,
    pub until: usize,
    pub fate: Fate,
}

pub struct Underway {
    slots: Vec<Option<(Message, usize)>>,
}

impl Default for Underway {
    fn default() -> Self {
        Underway { slots: vec![None; SLOTS] }
    }
}

impl Underway {
    /// The slots after an accepted call, against those before it: what ended, and how.
    /// Nothing is asked of the call but which slot it delivered.
    pub fn step(&mut self, m: &Words, column: usize, delivered: Option<(u32, Fate)>) -> Vec<Arrow> {
        let mut ended = Vec::new();
        for (slot, held) in (1..).zip(&mut self.slots) {
            let now = view::message(m, slot);
            let delivery = delivered.filter(|(one, _)| *one == slot);
            if delivery.is_none() && held.map(|(message, _)| message) == now {
                continue;
            }
            let fate = delivery.map_or(Fate::Lost, |(_, fate)| fate);
            let end = |(message, sent)| Arrow { message, sent, until: column, fate };
            ended.extend(held.take().map(end));
            *held = now.map(|message| (message, column));
        }
        ended
    }

    /// The machine is over, and what its slots hold was never delivered.
    pub fn leave(&mut self, until: usize) -> Vec<Arrow> {
        let left = self.slots.iter_mut().filter_map(Option::take);
        left.map(|(message, sent)| Arrow { message, sent, until, fate: Fate::Waiting }).collect()
    }
}
