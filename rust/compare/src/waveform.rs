//! Waveforms, of running times that are right or damaged, and what a reader of dumps makes of them.

use crate::engine;
use crate::side::{numbers_of, PART, WANTED};
use crate::tally::Tally;
use cudlomer::Set;
use reference::{dump, Job};

/// The dump in buffers around its length, and read back where there is one.
pub fn compare(tally: &mut Tally, numbers: &[u64], times: &[u64]) {
    let wanted = (WANTED.set_waveform)(numbers, times, &mut [0; Set::MAX_WAVEFORM]);
    let length = wanted.unwrap_or(40) as usize;
    tally.around("set_waveform", &(numbers, times), (length, 0xa5), |side, out| (side.set_waveform)(numbers, times, out));
    if wanted.is_ok() {
        compare_read_back(tally, numbers, times);
    }
}

/// The dump that the part writes is read as the rows of the trace that it writes.
fn compare_read_back(tally: &mut Tally, numbers: &[u64], times: &[u64]) {
    let mut text = [0; Set::MAX_WAVEFORM];
    let written = (PART.set_waveform)(numbers, times, &mut text).unwrap_or(0) as usize;
    let read = dump::spans(&String::from_utf8_lossy(&text[..written]));
    tally.same("waveform read back", &(numbers, times), read, Some(engine::traced(numbers, times)));
}

/// A dump that is longer than any other text of the part may be.
pub fn compare_longest(tally: &mut Tally) {
    let jobs = interrupted();
    let times: Vec<u64> = jobs.iter().map(|j| j.most).collect();
    let length = (PART.set_waveform)(&numbers_of(&jobs), &times, &mut [0; Set::MAX_WAVEFORM]);
    tally.same("length of a waveform", &jobs, length.is_ok_and(|bytes| bytes as usize > Set::MAX_TEXT), true);
    compare(tally, &numbers_of(&jobs), &times);
}

/// 64 jobs of which each but the first interrupts another, the last at the greatest release: nine chains of one job, and one of 55 short jobs.
fn interrupted() -> Vec<Job> {
    let (short, last) = (55, 1_000_000_000);
    let first = last - 2 * (short - 1);
    let job = |chain, job, release, most| Job { chain, job, release, priority: chain, least: most, most, deadline: 0 };
    let single = (1..=9).map(|chain| job(chain, 1, first - (10 - chain), if chain == 9 { short + 1 } else { 2 }));
    single.chain((1..=short).map(|place| job(10, place, first + 2 * (place - 1), 1))).collect()
}
