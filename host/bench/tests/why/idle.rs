//! Idle clients that may start, by the premises of the theorem.

use bench::open::{up, with_room};
use bench::view;
use copy::answer::{READ_ENDED, WRITE_ENDED};
use copy::directory::Directory;
use copy::layout::*;
use copy::line::Call;
use copy::rehearsal::run;
use copy::{Numbers, Words};

/// The premises of a read, as the theorem has them of an idle client.
pub fn may_read(m: &Words, n: &Numbers, client: u32) -> bool {
    let directories = up(m, Party::Directory, n.nd);
    view::startable(m, n).contains(&client)
        && view::down_count(m, Party::Replica, n.nr) <= n.f
        && n.enough_to_read(directories)
        && n.enough_to_write(directories)
        && SLOTS - view::waiting(m).len() >= slots_asked(n)
}

/// 5 + 7 + 5 + 4, and in columns 16 + 7 + 16 + 4.
pub fn slots_asked(n: &Numbers) -> usize {
    match n.columns {
        0 => 21,
        _ => 43,
    }
}

/// What a write asks besides.
pub fn may_write(m: &Words, n: &Numbers, client: u32) -> bool {
    let at_top = |id: u32| !view::is_down(m, Party::Directory, id) && Directory::read(m, id).tag.number == n.top;
    may_read(m, n, client)
        && (up(m, Party::Replica, n.nr) & with_room(m, n.nr)).count_ones() > n.f
        && !(1..=n.nd).any(at_top)
}

/// Start, promised price and the code of the end.
pub fn a_read(n: &Numbers, client: u32) -> (Call, u32, u32) {
    let (rq, wq) = quorums(n);
    (Call::Read { client }, 2 * rq + 2 * wq + 2, READ_ENDED)
}

pub fn a_write(n: &Numbers, client: u32) -> (Call, u32, u32) {
    let (rq, wq) = quorums(n);
    (Call::Write { client, word: 1 << 31 }, 2 * rq + 2 * wq + 2 * n.f + 2, WRITE_ENDED)
}

/// In columns, "rq and wq become the column height and the columns".
fn quorums(n: &Numbers) -> (u32, u32) {
    match n.columns {
        0 => (n.rq, n.wq),
        columns => (n.nd / columns, columns),
    }
}

pub fn started(m: &Words, start: Call) -> Box<Words> {
    let mut words: Box<Words> = m.into();
    assert!(run(&mut words, start).answer.accepted());
    words
}

/// Operations that may be started in a state, by the theorem's premises.
pub fn operations(m: &Words) -> Vec<(u32, (Call, u32, u32))> {
    let n = Numbers::read(m);
    let reads = (1..=n.nc).filter(|&client| may_read(m, &n, client)).map(|client| (client, a_read(&n, client)));
    let writes = (1..=n.nc).filter(|&client| may_write(m, &n, client)).map(|client| (client, a_write(&n, client)));
    reads.chain(writes).collect()
}
