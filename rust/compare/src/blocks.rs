//! Whose jobs delay which job: the sum that a planner makes of what the part names, and how often the drawn sets meet what decides.

use crate::side::{numbers_of, PART};
use crate::tally::Tally;
use reference::blocks::{self, Delay};
use reference::{machine, Job};

/// ERT, CJA and ITR.
const ALGORITHMS: [u64; 3] = [1, 2, 3];

/// A set that is accepted.
pub fn compare(tally: &mut Tally, jobs: &[Job]) {
    for algorithm in ALGORITHMS {
        let answers = Answers::of(jobs, algorithm);
        let sums: Vec<Option<u64>> = (0..jobs.len()).map(|j| answers.sum(j)).collect();
        let bounds: Vec<Option<u64>> = answers.bounds.iter().copied().map(Some).collect();
        tally.same("planner's sum", &(algorithm, jobs), sums, bounds);
        count(tally, jobs, algorithm);
    }
}

fn chains_of(jobs: &[Job]) -> usize {
    jobs.iter().filter(|job| job.job == 1).count()
}

/// How many numbers the blocks of so many jobs are: for each job one, and two for each chain.
pub fn length(jobs: &[Job]) -> usize {
    jobs.len() * (2 * chains_of(jobs) + 1)
}

/// What the part answers by an algorithm: the bounds, and for each job the numbers of its blocks.
struct Answers<'a> {
    jobs: &'a [Job],
    algorithm: u64,
    releases: Vec<u64>,
    bounds: Vec<u64>,
    blocks: Vec<u64>,
}

impl Answers<'_> {
    fn of(jobs: &[Job], algorithm: u64) -> Answers<'_> {
        let (mut bounds, mut blocks) = (vec![0; jobs.len()], vec![0; length(jobs)]);
        let numbers = numbers_of(jobs);
        // of zeros, which stay where a call is refused, no sum can be made
        let _ = ((PART.set_bounds)(&numbers, algorithm, &mut bounds), (PART.set_blocks)(&numbers, algorithm, &mut blocks));
        Answers { jobs, algorithm, releases: machine::releases(jobs), bounds, blocks }
    }

    /// Where a sum begins, the running times from there to the job at a place, and the named blocks; none where no job has the number named.
    fn sum(&self, j: usize) -> Option<u64> {
        let (from, blocks) = self.blocks.chunks(self.blocks.len() / self.jobs.len()).nth(j)?.split_first()?;
        let k = (0..=j).find(|k| (self.jobs[*k].chain, self.jobs[*k].job) == (self.jobs[j].chain, *from))?;
        let demand: u64 = self.jobs[k..=j].iter().map(|job| job.most).sum();
        let named = (1..).zip(blocks.chunks(2)).map(|(chain, block)| self.counted((k, j), chain, (block[0], block[1])));
        Some(self.start(k) + demand + named.sum::<u64>())
    }

    /// The release of the job at a place, by ERT not before its predecessor's bound.
    fn start(&self, k: usize) -> u64 {
        let is_after = self.algorithm == 1 && self.jobs[k].job > 1;
        self.releases[k].max(if is_after { self.bounds[k - 1] } else { 0 })
    }

    /// The running times of those jobs of a block that count for a pair of places.
    fn counted(&self, (k, j): (usize, usize), chain: u64, (first, last): (u64, u64)) -> u64 {
        let is_named = |u: &usize| self.jobs[*u].chain == chain && (first..=last).contains(&self.jobs[*u].job);
        let is_met = |u: &usize| self.releases[k] < self.bounds[*u] && self.releases[*u] < self.bounds[j];
        (0..self.jobs.len()).filter(is_named).filter(|u| self.algorithm != 3 || is_met(u)).map(|u| self.jobs[u].most).sum()
    }
}

/// What the reference finds of a set, case by case.
fn count(tally: &mut Tally, jobs: &[Job], algorithm: u64) {
    let (delays, begins) = (blocks::by(jobs, algorithm).unwrap(), blocks::begins(jobs, algorithm).unwrap());
    tally.case("one chain", chains_of(jobs) == 1);
    for ((job, delay), begins) in jobs.iter().zip(&delays).zip(begins) {
        tally.case("from an earlier job", delay.from < job.job);
        tally.case("equal sums from several jobs", begins.len() > 1);
        for chain in (1..=delay.blocks.len() as u64).filter(|chain| *chain != job.chain) {
            count_blocks(tally, jobs, delay, chain);
        }
    }
}

fn count_blocks(tally: &mut Tally, jobs: &[Job], delay: &Delay, chain: u64) {
    let place = chain as usize - 1;
    let taken = delay.taken(place);
    tally.case("no block", taken.is_none());
    if let Some(block) = taken {
        let is_inside = |job: &&Job| job.chain == chain && (block.first..=block.last).contains(&job.job);
        let whole: u64 = jobs.iter().filter(is_inside).map(|job| job.most).sum();
        tally.case("a block that sums to 0", block.sum == 0);
        tally.case("a block of which some jobs count", (1..whole).contains(&block.sum));
        tally.case("equal blocks", delay.blocks[place].iter().filter(|other| other.sum == block.sum).count() > 1);
    }
}
