//! The paper's ITR tuned: a pair is worked out by a scan of every job of the other chains, over columns, with nothing allocated.

use reference::Job;

const MAX_JOBS: usize = 64;

type Column = [u64; MAX_JOBS];

const NONE: Column = [0; MAX_JOBS];

/// The place of a chain's first job, and the place after its last one.
type Places = (usize, usize);

struct Columns {
    urgency: Column,
    most: Column,
    release: Column,
    bound: Column,
    chains: [Places; MAX_JOBS],
    count: usize,
}

impl Columns {
    /// The bounds to start from are those of the ERT rule with interference 0.
    fn of(jobs: &[Job]) -> Columns {
        let mut columns = Columns { urgency: NONE, most: NONE, release: NONE, bound: NONE, chains: [(0, 0); MAX_JOBS], count: 0 };
        let (mut ready, mut bound) = (0, 0);
        for (i, job) in jobs.iter().enumerate() {
            if job.job == 1 {
                columns.chains[columns.count].0 = i;
                columns.count += 1;
                (ready, bound) = (0, 0);
            }
            let release = job.release.max(ready);
            ready = release + job.least;
            bound = release.max(bound) + job.most;
            columns.urgency[i] = job.priority;
            columns.most[i] = job.most;
            columns.release[i] = release;
            columns.bound[i] = bound;
            columns.chains[columns.count - 1].1 = i + 1;
        }
        columns
    }

    /// The largest sum over a block of a chain's jobs at least as urgent, where only jobs count whose spans overlap the pair's.
    #[inline(always)]
    fn largest(&self, (first, end): Places, target: u64, from: u64, to: u64) -> u64 {
        let (mut block, mut largest) = (0, 0);
        for i in first..end.min(MAX_JOBS) {
            if from < self.bound[i] && self.release[i] < to {
                block += self.most[i];
            }
            if self.urgency[i] < target {
                block = 0;
            }
            largest = largest.max(block);
        }
        largest
    }

    /// The sum of these over all chains but one.
    #[inline(always)]
    fn interference(&self, own: usize, target: u64, from: u64, to: u64) -> u64 {
        let mut total = 0;
        for others in [&self.chains[..own], &self.chains[own + 1..self.count]] {
            for &places in others {
                total += self.largest(places, target, from, to);
            }
        }
        total
    }

    /// The bound of a job in the next round: the largest over its pairs with the jobs of its chain up to itself.
    #[inline(always)]
    fn next_bound(&self, own: usize, first: usize, j: usize) -> u64 {
        let to = self.bound[j];
        let (mut sum, mut low, mut best) = (0, u64::MAX, 0);
        for k in (first..j + 1).rev() {
            let from = self.release[k];
            sum += self.most[k];
            low = low.min(self.urgency[k]);
            best = best.max(from + sum + self.interference(own, low, from, to));
        }
        best
    }

    /// Works out the next bounds, and answers whether they differ.
    fn round(&self, next: &mut Column) -> bool {
        for (own, &(first, end)) in self.chains[..self.count].iter().enumerate() {
            for (j, next) in (first..end).zip(&mut next[first..end]) {
                *next = self.next_bound(own, first, j);
            }
        }
        *next != self.bound
    }
}

/// The ITR bounds of a table and how many rounds they take.
pub fn itr(jobs: &[Job]) -> (Column, u64) {
    let mut columns = Columns::of(jobs);
    let mut next = NONE;
    let mut rounds = 1;
    while columns.round(&mut next) {
        columns.bound = next;
        rounds += 1;
    }
    (columns.bound, rounds)
}
