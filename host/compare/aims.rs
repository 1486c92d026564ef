//! What scripts of calls and lists of events aim at: instants that a path holds, distances at which a
//! rule turns, kinds by their weight.

use crate::calls::{DATA, HEARD, IDS, LATE, QUIET, RING, SAMPLES, SEEK, SPANS, STOP};
use crate::random::Rng;
use oracle::proto::path::script::{Image, after_of};

pub const MS: u64 = 1_000_000;
pub const SECOND: u64 = 1_000_000_000;

/// One of some things, as often as its weight says.
pub fn weighted<T: Copy>(rng: &mut Rng, all: &[(T, u64)]) -> T {
    let sum = all.iter().map(|&(_, weight)| weight).sum();
    let mut left = rng.below(sum);
    for &(one, weight) in all {
        if left < weight {
            return one;
        }
        left -= weight;
    }
    unreachable!("weights sum up")
}

/// A duration below 2^62: some steps, or few, or any.
pub fn duration(rng: &mut Rng, steps: &[u64]) -> u64 {
    let (step, times) = (rng.pick(steps), rng.below(40));
    match rng.below(8) {
        0 => rng.below(8),
        1 => rng.wide() % (1 << 62),
        2 => (1 << 62) - 1,
        _ => step.saturating_mul(times) % (1 << 62),
    }
}

/// Every instant that a path holds, and the clock.
pub fn instants(i: &Image, now: u64) -> Vec<u64> {
    let mut known = vec![now];
    for at in (RING..IDS).step_by(5).filter(|&at| i[at] == 1) {
        known.extend([i[at + 2], i[at + 3]]);
    }
    for at in [QUIET, STOP, STOP + 4, SEEK, HEARD, DATA] {
        known.extend((i[at] == 1).then_some(i[at + 1]));
    }
    for at in (SAMPLES..SPANS).step_by(3).filter(|&at| i[at] == 1) {
        known.push(i[at + 1]);
    }
    for at in (SPANS..SPANS + 32).step_by(4).filter(|&at| i[at] == 1) {
        known.extend([i[at + 1], i[at + 2]]);
    }
    known
}

/// Whether an identifier was given after that of the search probe.
pub fn after_search(i: &Image, id: u64) -> bool {
    after_of(id as u32, i[SEEK + 2] as u32)
}

/// Whether such a one was answered in time.
pub fn answered_since(i: &Image) -> bool {
    i[IDS + 2] == 1 && after_search(i, i[IDS + 3])
}

/// The first one that waits.
pub fn waits_since(i: &Image) -> Option<u64> {
    let mut ring = (RING..LATE).step_by(5).filter(|&at| i[at] == 1);
    ring.find(|&at| after_search(i, i[at + 1]))
        .map(|at| i[at + 1])
}
