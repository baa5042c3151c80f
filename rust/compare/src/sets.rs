//! The functions on sets by value that need no running times.

use crate::blocks;
use crate::draw::Draw;
use crate::side::{jobs_of, numbers_of, PART};
use crate::tally::Tally;
use reference::{text, Job};

/// Those that there are, and others, some of which are right in their low bits alone.
pub const ALGORITHMS: [u64; 8] = [0, 1, 2, 3, 4, 256 + 3, (1 << 32) + 1, u64::MAX];

pub fn compare(tally: &mut Tally, draw: &mut Draw, jobs: &[Job]) {
    let numbers = numbers_of(jobs);
    compare_set(tally, &numbers);
    compare_round_trip(tally, &numbers);
    blocks::compare(tally, jobs);
    for _ in 0..3 {
        compare_set(tally, &draw.damaged_set(&numbers));
    }
}

fn compare_set(tally: &mut Tally, numbers: &[u64]) {
    let jobs = jobs_of(numbers);
    let length = text::table_text(&jobs).len();
    tally.around("set_write", &numbers, (length, 0xa5), |side, out| (side.set_write)(numbers, out));
    for algorithm in ALGORITHMS {
        let given = (algorithm, numbers);
        tally.around("set_bounds", &given, (jobs.len(), u64::MAX), |side, out| (side.set_bounds)(numbers, algorithm, out));
        tally.around("set_blocks", &given, (blocks::length(&jobs), u64::MAX), |side, out| (side.set_blocks)(numbers, algorithm, out));
        tally.answers("set_verdict", &given, |side| (side.set_verdict)(numbers, algorithm));
    }
    tally.answers("set_rounds", &numbers, |side| (side.set_rounds)(numbers));
}

/// The text that the part writes of a set is read as that set.
fn compare_round_trip(tally: &mut Tally, numbers: &[u64]) {
    let mut text = [0; 4_096];
    let mut read = vec![0; numbers.len()];
    let written = (PART.set_write)(numbers, &mut text).unwrap_or(0);
    let jobs = (PART.set_read)(&text[..written as usize], &mut read);
    tally.same("round trip", &numbers, (jobs, read), (Ok(numbers.len() as i64 / 7), numbers.to_vec()));
}
