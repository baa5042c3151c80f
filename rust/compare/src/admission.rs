//! Admission of a further chain to sets that are right, damaged or empty.

use crate::draw::{Draw, Kind};
use crate::sets::ALGORITHMS;
use crate::side::numbers_of;
use crate::tally::Tally;
use reference::Job;

pub fn compare(tally: &mut Tally, draw: &mut Draw, kind: Kind, jobs: &[Job]) {
    let mut held = jobs.to_vec();
    let mut chain = draw.chain(kind);
    if draw.one_in(2) {
        relax(&mut held);
        relax(&mut chain);
    }
    let (held, chain) = (numbers_of(&held), numbers_of(&chain));
    let count = jobs.len() as u64;
    compare_rooms(tally, &held, count, &chain);
    compare_rooms(tally, &[], 0, &chain);
    compare_rooms(tally, &held, count, &[]);
    compare_rooms(tally, &held, count, &draw.damaged_set(&chain));
    let damaged = draw.damaged_set(&held);
    let damaged_count = damaged.len().div_ceil(7) as u64;
    compare_rooms(tally, &damaged, damaged_count, &chain);
    compare_admission(tally, &damaged, damaged_count, &[], 3, damaged.len());
    for other in [0, count - 1, count + 1, 64, 65, count | 1 << 32, u64::MAX] {
        compare_admission(tally, &held, other, &chain, 3, held.len() + 8 * 7);
    }
}

/// Puts the deadlines off, so that they are met.
fn relax(jobs: &mut [Job]) {
    jobs.iter_mut().for_each(|j| j.deadline = 4_000_000_000);
}

/// By each algorithm, with room for the joined set, for a number less or more, for much more, and for the held set alone.
fn compare_rooms(tally: &mut Tally, held: &[u64], count: u64, chain: &[u64]) {
    let exact = 7 * (count as usize + chain.len().div_ceil(7));
    for algorithm in ALGORITHMS {
        compare_admission(tally, held, count, chain, algorithm, exact);
    }
    for room in [held.len(), exact.saturating_sub(1), exact + 1, exact + 100] {
        compare_admission(tally, held, count, chain, 3, room);
    }
}

fn compare_admission(tally: &mut Tally, held: &[u64], count: u64, chain: &[u64], algorithm: u64, room: usize) {
    let mut lent = held.to_vec();
    lent.resize(room, u64::MAX);
    let given = (held, count, chain, algorithm);
    tally.lent("set_admit", &given, &lent, |side, jobs| (side.set_admit)(jobs, count, chain, algorithm));
}
