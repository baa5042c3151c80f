//! Records whose values are at their limits or beyond them, in every combination, in a text, in a set and in a joining chain.

use crate::side::numbers_of;
use crate::tally::Tally;
use reference::{text, Job};

const RELEASES: [u64; 2] = [1_000_000_000, 1_000_000_001];
const PRIORITIES: [u64; 3] = [0, 255, 256];
const TIMES: [u64; 6] = [0, 1, 2, 999_999, 1_000_000, 1_000_001];
const DEADLINES: [u64; 2] = [4_000_000_000, 4_000_000_001];

/// The chain and job numbers of a record behind job 1 of chain 1: the next of the chain, that of the next chain, and two that are out of order.
const PLACES: [(u64, u64); 4] = [(1, 2), (2, 1), (1, 1), (17, 1)];

const FIRST: Job = Job { chain: 1, job: 1, release: 0, priority: 1, least: 1, most: 1, deadline: 4_000_000_000 };

pub fn compare(tally: &mut Tally) {
    for (chain, job) in PLACES {
        for record in records() {
            let further = Job { chain, job, ..record };
            compare_record(tally, &[FIRST, further]);
            compare_record(tally, &[FIRST, further, Job { chain, job: job + 1, priority: 256, ..FIRST }]);
        }
    }
    for record in records() {
        compare_record(tally, &sixteen_chains_and(record));
        compare_joining(tally, record);
    }
}

/// One of each combination of values.
fn records() -> impl Iterator<Item = Job> {
    let releases = RELEASES.into_iter().flat_map(|release| DEADLINES.map(|deadline| Job { release, deadline, ..FIRST }));
    let priorities = releases.flat_map(|job| PRIORITIES.map(|priority| Job { priority, ..job }));
    priorities.flat_map(|job| TIMES.map(|least| Job { least, ..job })).flat_map(|job| TIMES.map(|most| Job { most, ..job }))
}

/// A 17th chain, next in order and beyond the limit.
fn sixteen_chains_and(record: Job) -> Vec<Job> {
    let chains = (1..=16).map(|chain| Job { chain, ..FIRST });
    chains.chain([Job { chain: 17, ..record }]).collect()
}

/// The records as the text of a table and as a set.
fn compare_record(tally: &mut Tally, jobs: &[Job]) {
    let (table, numbers) = (text::table_text(jobs).into_bytes(), numbers_of(jobs));
    tally.lent("set_read of faults", &jobs, &[u64::MAX; 17 * 7], |side, out| (side.set_read)(&table, out));
    tally.answers("set_verdict of faults", &jobs, |side| (side.set_verdict)(&numbers, 0));
}

/// The record as a chain that joins a set, behind one that is right.
fn compare_joining(tally: &mut Tally, record: Job) {
    let chain = numbers_of(&[FIRST, record]);
    let held = [numbers_of(&[FIRST]), vec![u64::MAX; 2 * 7]].concat();
    tally.lent("set_admit of faults", &record, &held, |side, jobs| (side.set_admit)(jobs, 1, &chain, 3));
}
