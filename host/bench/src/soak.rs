//! The comparison on ever new schedules, for as long as is wanted.

use crate::compare::{compare_all, Difference, Seeded};
use crate::schedule::schedule;
use crate::tally::{counted, Tally};
use std::collections::hash_map::RandomState;
use std::hash::{BuildHasher, Hasher};
use std::path::Path;
use std::time::Duration;

/// Schedules in one run of the program.
pub const BATCH: u64 = 100;

/// Compares one batch, and then batch after batch while `goes_on` says so of what was compared.
pub fn soak(program: &Path, seed: u64, mut goes_on: impl FnMut(&Tally) -> bool) -> Result<Tally, Difference> {
    let mut total = Tally::default();
    loop {
        let batch: Vec<Seeded> = (0..BATCH).map(|at| soaked(seed.wrapping_add(total.schedules + at))).collect();
        total.join(&compare_all(program, &batch)?);
        if !goes_on(&total) {
            return Ok(total);
        }
    }
}

/// The schedule of a seed; lengths vary with it.
pub fn soaked(seed: u64) -> Seeded {
    Seeded { seed, input: schedule(seed, 50 + (seed.wrapping_mul(7919) % 1500) as usize) }
}

/// Another seed each time: the standard library's hashers have random keys.
pub fn any_seed() -> u64 {
    RandomState::new().build_hasher().finish()
}

/// What is so far, on a line for a terminal.
pub fn so_far(tally: &Tally, left: Duration) -> String {
    let Tally { schedules, operations, .. } = tally;
    let minutes = counted(left.as_secs().div_ceil(60), "minute");
    format!("{schedules} schedules, {} lines, {operations} operations; {minutes} left", tally.lines())
}

/// What agreed, for a log.
pub fn told(seed: u64, tally: &Tally, minutes: u64) -> String {
    format!("seed {seed}, {}: all agree: {tally}", counted(minutes, "minute"))
}
