//! A soak can be repeated by its seed, and goes on as long as it is told to.

use bench::external;
use bench::soak::{any_seed, so_far, soak, soaked, told, BATCH};
use bench::tally::Tally;
use bench::{schedule, Difference};
use std::path::{Path, PathBuf};
use std::time::Duration;

fn program() -> PathBuf {
    external::program().unwrap_or_else(|why| panic!("{why}"))
}

fn once(seed: u64) -> Tally {
    soak(&program(), seed, |_| false).unwrap_or_else(|difference| panic!("{difference}"))
}

#[test]
fn one_seed_one_soak() {
    let tally = once(12);
    assert_eq!(tally.schedules, BATCH);
    assert!(tally.operations > 1000 && tally.lines() > 50_000, "{tally}");
    assert_eq!(once(12), tally);
    assert_ne!(once(13), tally);
}

/// Seeds go on from zero behind the last.
#[test]
fn the_last_seeds() {
    assert_eq!(once(u64::MAX - 3).schedules, BATCH);
    for seed in [0, 1, u64::MAX] {
        let one = soaked(seed);
        let lines = one.input.iter().filter(|&&byte| byte == b'\n').count();
        assert_eq!((one.seed, one.input), (seed, schedule(seed, lines)));
    }
}

#[test]
fn seeds_of_their_own() {
    assert_ne!(any_seed(), any_seed());
}

/// Each batch is told of; schedules of later batches follow those of the first.
#[test]
fn batch_after_batch() {
    let mut heard = Vec::new();
    let total = soak(&program(), 5, |tally| {
        heard.push(*tally);
        heard.len() < 3
    });
    let mut expected = Tally::default();
    for (batch, tally) in heard.iter().enumerate() {
        expected.join(&once(5 + batch as u64 * BATCH));
        assert_eq!(*tally, expected);
    }
    assert_eq!((heard.len(), total), (3, Ok(expected)));
}

#[test]
fn a_difference_ends_it() {
    let Difference { seed, shortest, .. } = soak(Path::new("cat"), 40, |_| true).expect_err("cat is no rehearsal");
    assert_eq!((seed, shortest.starts_with(b"S ")), (40, true));
}

#[test]
fn what_is_told() {
    let mut tally = Tally { schedules: 3, operations: 2, ..Tally::default() };
    (tally.base.codes[0], tally.wide.codes[0]) = (30, 20);
    (tally.wide.set_ups, tally.wide.codes[1], tally.wide.codes[2], tally.wide.newer) = (1, 2, 1, 1);
    let expected = "seed 9, 10 minutes: all agree: 3 schedules, 53 lines, 2 operations in line\n\
        by counts: 0 set-ups, 0 reads (0 with a newer page) and 0 writes ended, codes 0:30\n\
        in columns: 1 set-up, 2 reads (1 with a newer page) and 1 write ended, codes 0:20 1:2 2:1";
    assert_eq!(told(9, &tally, 10), expected);
    let left = |seconds| so_far(&tally, Duration::from_secs(seconds));
    assert_eq!(left(61), "3 schedules, 53 lines, 2 operations; 2 minutes left");
    assert_eq!(left(60), "3 schedules, 53 lines, 2 operations; 1 minute left");
}
