//! Reads that are overtaken: the page that one waits for is tidied away, and it gets a newer one.

use crate::open::has_tag;
use crate::view;
use copy::layout::{Party, READ};
use copy::mail::Message;
use copy::replica::entries;
use copy::Words;

/// A read whose replica is up and has the very page that it asks for.
pub fn finds_its_page(m: &Words, message: &Message) -> bool {
    let Message { kind, to, tag, .. } = *message;
    kind == READ && !view::is_down(m, Party::Replica, to) && has_tag(m, to, tag)
}

/// Replicas that would tidy away a page for which a read waits.
pub fn replicas(m: &Words) -> Vec<u32> {
    let mail = view::waiting(m).into_iter().filter_map(|slot| view::message(m, slot));
    let reads = mail.filter(|message| finds_its_page(m, message));
    reads.filter(|read| read.tag < entries(m, read.to).highest().0).map(|read| read.to).collect()
}
