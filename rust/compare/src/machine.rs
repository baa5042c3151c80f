//! Ticks, of running times and states that are right or damaged.

use crate::draw::Draw;
use crate::engine::TICKS;
use crate::side::{numbers_of, WANTED};
use crate::tally::Tally;
use reference::Job;

/// So many states are drawn, and so many ticks gone through from each.
const STATES: usize = 4;
const FEW_TICKS: u64 = 12;

pub fn compare(tally: &mut Tally, draw: &mut Draw, jobs: &[Job]) {
    let numbers = numbers_of(jobs);
    let times = draw.times(jobs);
    let start = draw.start(jobs);
    let damaged_times = draw.damaged_times(jobs, &times);
    let damaged_set = draw.damaged_set(&numbers);
    for (numbers, times) in [(&numbers, &times), (&numbers, &damaged_times), (&damaged_set, &times)] {
        compare_tick(tally, numbers, times, &start);
    }
    compare_tick(tally, &numbers, &damaged_times, &draw.damaged_state(jobs, &times, &start));
    compare_ticks(tally, draw, (jobs, &times), (start, TICKS));
    for _ in 0..STATES {
        let state = draw.state(jobs, &times);
        compare_ticks(tally, draw, (jobs, &times), (state, FEW_TICKS));
    }
}

fn compare_tick(tally: &mut Tally, numbers: &[u64], times: &[u64], state: &[u64]) {
    tally.lent("set_tick", &(numbers, times, state), state, |side, lent| (side.set_tick)(numbers, times, lent));
}

/// Ticks from a state on, with a damaged state now and then; where a tick is idle, time goes on to a release now and then.
fn compare_ticks(tally: &mut Tally, draw: &mut Draw, (jobs, times): (&[Job], &[u64]), (mut state, ticks): (Vec<u64>, u64)) {
    let numbers = numbers_of(jobs);
    for _ in 0..ticks {
        compare_tick(tally, &numbers, times, &state);
        if draw.one_in(4) {
            compare_tick(tally, &numbers, times, &draw.damaged_state(jobs, times, &state));
        }
        match (WANTED.set_tick)(&numbers, times, &mut state) {
            Ok(0) if draw.one_in(2) => {
                let release = jobs[draw.range(0, jobs.len() as u64 - 1) as usize].release;
                state[0] = state[0].max(release.saturating_sub(1));
            }
            Ok(1) => break,
            _ => {}
        }
    }
    // a state as long as memory goes on behind it
    compare_tick(tally, &numbers, times, &[state.as_slice(), &state].concat());
}
