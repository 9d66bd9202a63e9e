//! The five sorts of schedule. The seed chooses.

use crate::prng::Prng;
use copy::layout::{DIRECTORIES, WIDE_DIRECTORIES};
use copy::{Layout, Numbers};

#[derive(Clone, Copy, PartialEq, Eq, Debug)]
pub enum Profile {
    Healthy,
    Crashing,
    SmallTop,
    Crowded,
    Malformed,
}

pub const PROFILES: [Profile; 5] =
    [Profile::Healthy, Profile::Crashing, Profile::SmallTop, Profile::Crowded, Profile::Malformed];

#[derive(Clone, Copy, PartialEq, Eq, Debug)]
pub enum Action {
    Deliver,
    Start,
    Gossip,
    Tidy,
    Crash,
    Refused,
    Malformed,
    SetUp,
}

const ACTIONS: [Action; 8] = [
    Action::Deliver,
    Action::Start,
    Action::Gossip,
    Action::Tidy,
    Action::Crash,
    Action::Refused,
    Action::Malformed,
    Action::SetUp,
];

impl Profile {
    pub fn of_seed(seed: u64) -> Profile {
        PROFILES[(seed % PROFILES.len() as u64) as usize]
    }

    fn weights(self) -> [u32; 8] {
        match self {
            Profile::Healthy => [800, 150, 20, 20, 0, 8, 0, 1],
            Profile::Crashing => [780, 150, 30, 15, 12, 8, 0, 3],
            Profile::SmallTop => [830, 130, 10, 10, 3, 8, 0, 4],
            Profile::Crowded => [600, 120, 250, 4, 3, 10, 0, 1],
            Profile::Malformed => [560, 110, 15, 15, 4, 90, 200, 6],
        }
    }

    pub fn action(self, rng: &mut Prng) -> Action {
        ACTIONS[rng.weighted(&self.weights())]
    }

    /// A third of the machines are in columns.
    pub fn numbers(self, rng: &mut Prng) -> Numbers {
        let layout = if rng.one_in(3) { Layout::Wide } else { Layout::Base };
        let any = any_numbers(rng, layout);
        match self {
            // Half of them are small in all, so that writes use up the numbers.
            Profile::SmallTop if rng.one_in(2) => spending(rng, layout),
            Profile::SmallTop => Numbers { top: rng.between(3, 14), nc: rng.between(2, 8), ..any },
            // Some hoard entries at few replicas, some fill the slots with gossip, some do both.
            Profile::Crowded if rng.one_in(3) => hoarding(rng, layout),
            Profile::Crowded if rng.one_in(2) => jammed(rng, layout),
            Profile::Crowded => Numbers { nc: 8, ..with_replicas(any, rng.between(3, 7)) },
            _ => any,
        }
    }
}

pub fn fewest_directories(layout: Layout) -> u32 {
    match layout {
        Layout::Base => 1,
        Layout::Wide => 2,
    }
}

pub fn any_numbers(rng: &mut Prng, layout: Layout) -> Numbers {
    let nr = rng.between(1, 7);
    let top = rng.pick(&[40, 100, 1000, 1_000_000, u32::MAX]);
    let f = rng.between(0, (nr - 1) / 2);
    let n = Numbers { nc: rng.between(1, 8), nd: 0, nr, f, rq: 0, wq: 0, top, columns: 0 };
    match layout {
        Layout::Base => {
            let nd = rng.between(1, DIRECTORIES as u32);
            let rq = rng.between(1, nd);
            Numbers { nd, rq, wq: rng.between(nd - rq + 1, nd), ..n }
        }
        Layout::Wide => {
            let (nd, columns) = any_shape(rng);
            Numbers { nd, columns, ..n }
        }
    }
}

/// Directories and columns. Most have rows and columns: the others bear no crash of a directory.
fn any_shape(rng: &mut Prng) -> (u32, u32) {
    let shapes =
        (2..=WIDE_DIRECTORIES as u32).flat_map(|nd| divisors(nd).into_iter().map(move |columns| (nd, columns)));
    let (flat, full): (Vec<_>, Vec<_>) = shapes.partition(|&(nd, columns)| columns == 1 || columns == nd);
    if rng.one_in(3) {
        rng.pick(&flat)
    } else {
        rng.pick(&full)
    }
}

/// In how many columns so many directories can stand.
pub fn divisors(nd: u32) -> Vec<u32> {
    (1..=nd).filter(|&columns| nd.is_multiple_of(columns)).collect()
}

fn with_replicas(n: Numbers, nr: u32) -> Numbers {
    Numbers { nr, f: (nr - 1) / 2, ..n }
}

fn jammed(rng: &mut Prng, layout: Layout) -> Numbers {
    small_quorums(layout, rng.between(2, 3), 2, 1000)
}

fn spending(rng: &mut Prng, layout: Layout) -> Numbers {
    let nr = rng.between(1, 2);
    small_quorums(layout, fewest_directories(layout), nr, rng.between(3, 6))
}

fn hoarding(rng: &mut Prng, layout: Layout) -> Numbers {
    small_quorums(layout, fewest_directories(layout), rng.between(1, 3), 1000)
}

/// Eight clients, any one replica, and any one directory to read; all directories to write.
fn small_quorums(layout: Layout, nd: u32, nr: u32, top: u32) -> Numbers {
    let n = Numbers { nc: 8, nd, nr, f: 0, rq: 0, wq: 0, top, columns: 0 };
    match layout {
        Layout::Base => Numbers { rq: 1, wq: nd, ..n },
        Layout::Wide => Numbers { columns: nd, ..n },
    }
}
