//! LDR as a step machine over lent words, 4,992 or in columns 5,036, written from the papers alone.
#![forbid(unsafe_code)]

pub mod answer;
pub mod calls;
pub mod client;
pub mod directory;
pub mod good;
pub mod layout;
pub mod line;
pub mod machine;
pub mod mail;
pub mod numbers;
pub mod rehearsal;
pub mod replica;
pub mod tag;

pub use answer::{Answer, Report};
pub use calls::base::{crash, deliver, gossip, report, set_up, start_read, start_write, tidy};
pub use calls::wide;
pub use layout::{Layout, Page, Words, PAGE, WIDE_WORDS, WORDS};
pub use numbers::Numbers;
pub use rehearsal::{Rehearsal, Shown};
pub use tag::Tag;
