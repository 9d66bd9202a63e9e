//! The bad-machine check: every word of the machine is looked at on every call.
//! It is most of a call's time, so words that must be zero are gathered first and asked once.

use crate::layout::*;
use crate::numbers::Numbers;

/// All ones where a field is in use, else zero: a limit and a use give the limit that holds.
type Use = u32;

const fn used(yes: bool) -> Use {
    if yes {
        u32::MAX
    } else {
        0
    }
}

/// What a phase uses, and how many rounds are still to come in it.
struct PhaseForm {
    by_directories: Use,
    by_replicas: Use,
    set: Use,
    page: bool,
    rounds: u64,
}

const PHASES: [PhaseForm; 7] = [
    phase(None, false, false, 0),
    phase(Some(Party::Directory), true, false, 2),
    phase(Some(Party::Directory), true, false, 1),
    phase(None, true, false, 0),
    phase(Some(Party::Directory), false, true, 2),
    phase(Some(Party::Replica), false, true, 1),
    phase(Some(Party::Directory), true, true, 0),
];

const fn phase(answered: Option<Party>, set: bool, page: bool, rounds: u64) -> PhaseForm {
    PhaseForm {
        by_directories: used(matches!(answered, Some(Party::Directory))),
        by_replicas: used(matches!(answered, Some(Party::Replica))),
        set: used(set),
        page,
        rounds,
    }
}

/// What a message kind carries.
#[derive(Clone, Copy)]
struct KindForm {
    from: Party,
    to: Party,
    tag: Use,
    /// Bits of the set word, if there are so many replicas: one for a mark.
    set_bits: u32,
    number: Use,
    no_page: Use,
}

const KINDS: [KindForm; 16] = kinds();

const fn kinds() -> [KindForm; 16] {
    let mut table = [kind_form(0); 16];
    let mut kind = 1;
    while kind < 16 {
        table[kind as usize] = kind_form(kind);
        kind += 1;
    }
    table
}

const fn kind_form(kind: u32) -> KindForm {
    let (from, to) = ends(kind);
    let set = matches!(kind, RWRITE | WWRITE | RREAD_OK);
    let tag = set || matches!(kind, WREAD_OK | READ | WRITE | SECURE | READ_OK | NOTICE | GOSSIP);
    let page = matches!(kind, WRITE | READ_OK | GOSSIP);
    let set_bits = if set { u32::BITS } else { (kind == READ_OK) as u32 };
    KindForm { from, to, tag: used(tag), set_bits, number: used(kind < NOTICE), no_page: used(!page) }
}

/// The numbers of a good machine, nothing for a bad one.
pub fn numbers(m: &Words) -> Option<Numbers> {
    let n = Numbers::read(m);
    if !n.in_range(Layout::of(m)) {
        return None;
    }
    // What stands behind the directories stands here as in base's machine, at places known beforehand.
    let behind = row::<WORDS>(&m[later(m)..]);
    let mut strays = Strays([0; 4]);
    strays.gather(&m[NUMBERS..CLIENT_BASE]);
    let good = clients_good(m, &n, &mut strays)
        && directories_good(m, &n, &mut strays)
        && replicas_good(behind, &n, &mut strays)
        && slots_good(behind, &n, &mut strays);
    (good && strays.none()).then_some(n)
}

/// All words that must be zero, joined four abreast.
struct Strays([u32; 4]);

impl Strays {
    fn gather(&mut self, words: &[u32]) {
        self.0[0] |= words.iter().fold(0, |seen, word| seen | word);
    }

    /// A row whose length is known beforehand and a multiple of four, so that no loop is left.
    #[inline(always)]
    fn gather_row<const N: usize>(&mut self, row: &[u32; N]) {
        for four in row.chunks_exact(4) {
            for (lane, word) in self.0.iter_mut().zip(four) {
                *lane |= word;
            }
        }
    }

    /// As `gather_row`, if `mask` is all ones; nothing if it is zero.
    #[inline(always)]
    fn gather_where<const N: usize>(&mut self, row: &[u32; N], mask: u32) {
        for four in row.chunks_exact(4) {
            for (lane, word) in self.0.iter_mut().zip(four) {
                *lane |= word & mask;
            }
        }
    }

    fn none(&self) -> bool {
        self.0 == [0; 4]
    }
}

fn row<const N: usize>(words: &[u32]) -> &[u32; N] {
    words.try_into().expect("rows are cut to their length")
}

// The tests below join with `&` and not `&&`: a guess that fails costs more than a test.

fn tag_good(number: u32, client: u32, n: &Numbers, used: Use) -> bool {
    (number <= n.top & used) & (client <= n.nc & used) & ((number == 0) == (client == 0))
}

/// A set is in range if it has no bit above the count.
fn set_good(set: u32, count: u32) -> bool {
    set >> count == 0
}

/// Whether 1 to `count` has `id`, in one comparison.
fn counts(id: u32, count: u32) -> bool {
    id.wrapping_sub(1) < count
}

fn clients_good(m: &Words, n: &Numbers, strays: &mut Strays) -> bool {
    let rows = m[CLIENT_BASE..DIRECTORY_BASE].chunks_exact(CLIENT_ROW);
    rows.zip(1..).all(|(words, id)| {
        let client = row::<CLIENT_ROW>(words);
        if id <= n.nc {
            client_good(client, n, strays)
        } else {
            strays.gather_row(client);
            true
        }
    })
}

fn client_good(client: &[u32; CLIENT_ROW], n: &Numbers, strays: &mut Strays) -> bool {
    let [down, phase, number, answered, set, tag_number, tag_client, spare, ..] = *client;
    let Some(form) = PHASES.get(phase as usize) else { return false };
    if !form.page {
        strays.gather_row(row::<PAGE>(&client[8..]));
    }
    if phase == IDLE {
        return (down <= 1) & (number <= n.top) & (answered | set | tag_number | tag_client | spare == 0);
    }
    let answerers = n.nd & form.by_directories | n.nr & form.by_replicas;
    (down <= 1)
        & (spare == 0)
        & (number != 0)
        & (u64::from(number) + form.rounds <= u64::from(n.top))
        & set_good(answered, answerers)
        & set_good(set, n.nr & form.set)
        & tag_good(tag_number, tag_client, n, used(true))
}

fn directories_good(m: &Words, n: &Numbers, strays: &mut Strays) -> bool {
    let rows = m[DIRECTORY_BASE..REPLICA_DOWN + later(m)].chunks_exact(DIRECTORY_ROW);
    rows.zip(1..).all(|(words, id)| {
        let directory = row::<DIRECTORY_ROW>(words);
        let [down, number, client, set] = *directory;
        if id <= n.nd {
            (down <= 1) & tag_good(number, client, n, used(true)) & set_good(set, n.nr)
        } else {
            strays.gather_row(directory);
            true
        }
    })
}

#[inline(never)] // by itself its loops keep their registers, which saves 8 % of all instructions
fn replicas_good(m: &[u32; WORDS], n: &Numbers, strays: &mut Strays) -> bool {
    let flags = &m[REPLICA_DOWN..ENTRY_BASE];
    // The spare words follow the flags, so all past the used ones must be zero.
    strays.gather(&flags[n.nr as usize..]);
    let replicas = m[ENTRY_BASE..SLOT_BASE].chunks_exact(ENTRIES * ENTRY_ROW);
    replicas.zip(flags).zip(1..).all(|((entries, &down), id)| {
        if id <= n.nr {
            (down <= 1) & entries_good(entries, n, strays)
        } else {
            strays.gather_row(row::<{ ENTRIES * ENTRY_ROW }>(entries));
            true
        }
    })
}

fn entries_good(entries: &[u32], n: &Numbers, strays: &mut Strays) -> bool {
    let mut tags = [0u64; ENTRIES];
    let mut count = 0;
    let mut secured = false;
    for words in entries.chunks_exact(ENTRY_ROW) {
        let entry = row::<ENTRY_ROW>(words);
        let [state, number, client, spare, ..] = *entry;
        if state == FREE {
            strays.gather_row(entry);
            continue;
        }
        let tag = u64::from(number) << 32 | u64::from(client);
        let twice = tags[..count].contains(&tag);
        if (state > SECURED) | (spare != 0) | twice | !tag_good(number, client, n, used(true)) {
            return false;
        }
        tags[count] = tag;
        count += 1;
        secured |= state == SECURED;
    }
    secured
}

fn slots_good(m: &[u32; WORDS], n: &Numbers, strays: &mut Strays) -> bool {
    let parties = [n.nc, n.nd, n.nr];
    m[SLOT_BASE..].chunks_exact(SLOT_ROW).all(|words| {
        let slot = row::<SLOT_ROW>(words);
        if slot[0] == 0 {
            strays.gather_row(slot);
            true
        } else {
            slot_good(slot, n, &parties, strays)
        }
    })
}

#[inline(always)]
fn slot_good(slot: &[u32; SLOT_ROW], n: &Numbers, parties: &[u32; 3], strays: &mut Strays) -> bool {
    let [kind, from, to, tag_number, tag_client, set, number, spare, ..] = *slot;
    let Some(form) = KINDS.get(kind as usize) else { return false };
    strays.gather_where(row::<PAGE>(&slot[8..]), form.no_page);
    let number_good = (number <= n.top & form.number) & ((number != 0) == (form.number != 0));
    counts(from, parties[form.from as usize])
        & counts(to, parties[form.to as usize])
        & tag_good(tag_number, tag_client, n, form.tag)
        & set_good(set, n.nr.min(form.set_bits))
        & number_good
        & (spare == 0)
}
