//! CJA and the rounds of ITR, which scan all jobs for each pair or, where chains are long, sweep them, on sets drawn about the border of the two.

use crate::draw::Draw;
use crate::side::numbers_of;
use crate::tally::Tally;
use crate::windows;
use reference::Job;
use std::cmp::Reverse;

/// So many sets are drawn.
const SETS: usize = 2_000;

/// With so many jobs for each chain a round sweeps, by `SWEPT_FROM` in `crates/completion/src/round.rt`.
pub const SWEPT_FROM: u64 = 5;

pub fn compare(tally: &mut Tally, draw: &mut Draw) {
    for _ in 0..SETS {
        let jobs = draw.round_jobs();
        compare_set(tally, &jobs);
        windows::count(tally, &jobs);
    }
}

/// The bounds by CJA and by ITR, and the number of rounds.
fn compare_set(tally: &mut Tally, jobs: &[Job]) {
    let (numbers, room) = (numbers_of(jobs), vec![u64::MAX; jobs.len()]);
    for algorithm in [2, 3] {
        tally.lent("set_bounds", &(algorithm, jobs), &room, |side, out| (side.set_bounds)(&numbers, algorithm, out));
    }
    tally.answers("set_rounds", &jobs, |side| (side.set_rounds)(&numbers));
}

impl Draw {
    /// Chains whose jobs are released all at once, far apart or in between, with times that are longer or so short that figures meet, and with equal,
    /// few or many priorities.
    fn round_jobs(&mut self) -> Vec<Job> {
        let lengths = self.lengths();
        let time = [2, 6, 30][self.range(0, 2) as usize];
        let last = lengths.iter().sum::<u64>() * time * [0, 1, 2, 4, 8][self.range(0, 4) as usize] / 4;
        let highest = [0, 1, 2, 9, 255][self.range(0, 4) as usize];
        let mut jobs = Vec::new();
        for (chain, length) in (1..).zip(lengths) {
            let mut releases: Vec<u64> = (0..length).map(|_| self.range(0, last)).collect();
            releases.sort();
            for (job, (release, priority)) in (1..).zip(releases.into_iter().zip(self.priorities(length, highest))) {
                let most = self.range(1, time);
                jobs.push(Job { chain, job, release, priority, least: self.range(1, most), most, deadline: 0 });
            }
        }
        jobs
    }

    /// How many jobs each of up to twelve chains has: in all as many as a sweep needs, one less, fewer or more; beyond one for each chain they are
    /// spread evenly, fall on any chain, or are all of one.
    fn lengths(&mut self) -> Vec<u64> {
        let chains = self.range(1, 12);
        let border = SWEPT_FROM * chains;
        let count = match self.range(0, 3) {
            0 => border,
            1 => border - 1,
            2 => self.range(chains, border),
            _ => self.range(border, 64),
        };
        let (way, long) = (self.range(0, 2), self.range(0, chains - 1));
        let mut lengths = vec![1; chains as usize];
        for further in chains..count {
            let chain = match way {
                0 => further % chains,
                1 => self.range(0, chains - 1),
                _ => long,
            };
            lengths[chain as usize] += 1;
        }
        lengths
    }

    /// The priorities of a chain of so many jobs, from 0 to the highest: rising, falling or mixed.
    fn priorities(&mut self, length: u64, highest: u64) -> Vec<u64> {
        let mut priorities: Vec<u64> = (0..length).map(|_| self.range(0, highest)).collect();
        match self.range(0, 3) {
            0 => priorities.sort(),
            1 => priorities.sort_by_key(|priority| Reverse(*priority)),
            _ => {}
        }
        priorities
    }
}
