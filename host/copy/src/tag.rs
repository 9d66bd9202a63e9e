//! Tags compare by number, then client: the order of the fields gives that.

#[derive(Clone, Copy, PartialEq, Eq, PartialOrd, Ord, Debug, Default, Hash)]
pub struct Tag {
    pub number: u32,
    pub client: u32,
}

impl Tag {
    pub const FIRST: Tag = Tag { number: 0, client: 0 };

    pub fn new(number: u32, client: u32) -> Tag {
        Tag { number, client }
    }
}
