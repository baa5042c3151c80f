//! The windows of a set's last round, each the jobs of a chain whose spans overlap that of a pair, and how often they meet what decides in a sweep.

use crate::rounds::SWEPT_FROM;
use crate::tally::Tally;
use reference::{blocks, bounds, machine, Job};

/// A job with its effective release and its bound by ITR, from which the last round starts and which it gives.
struct Link {
    job: Job,
    release: u64,
    bound: u64,
}

/// Which cases a set is, and which its last round where that is a sweep, as the reference finds them.
pub fn count(tally: &mut Tally, jobs: &[Job]) {
    let figures = machine::releases(jobs).into_iter().zip(bounds::by(jobs, 3).unwrap());
    let links: Vec<Link> = jobs.iter().zip(figures).map(|(&job, (release, bound))| Link { job, release, bound }).collect();
    let chains: Vec<&[Link]> = links.chunk_by(|a, b| a.job.chain == b.job.chain).collect();
    let border = SWEPT_FROM as usize * chains.len();
    tally.case("a set that is swept", jobs.len() >= border);
    tally.case("a set at the border of what is swept", jobs.len() == border);
    tally.case("a set one job below the border", jobs.len() + 1 == border);
    if jobs.len() < border {
        return;
    }
    let long = chains.iter().filter(|chain| chain.len() > 1).count();
    tally.case("one long chain beside single jobs", chains.len() > 1 && long == 1);
    count_windows(tally, &chains);
    count_right_ends(tally, &links, &chains);
    count_meetings(tally, &links);
    count_targets(tally, jobs);
}

fn count_windows(tally: &mut Tally, chains: &[&[Link]]) {
    let sweeps = sweeps(chains);
    let any = |is_met: fn(&Window) -> bool| sweeps.iter().flatten().any(is_met);
    let any_next = |is_met: fn(&Window, &Window) -> bool| sweeps.iter().any(|sweep| sweep.windows(2).any(|two| is_met(&two[0], &two[1])));
    tally.case("an empty window", any(|window| window.is_empty()));
    tally.case("an empty window between two jobs", any(|window| window.is_empty() && window.lo > 0 && window.hi < window.chain.len()));
    tally.case("a window that begins inside its chain", any(|window| window.begins_inside()));
    tally.case("a window that ends inside its chain", any(|window| window.ends_inside()));
    tally.case("a window that begins and ends inside its chain", any(|window| window.begins_inside() && window.ends_inside()));
    tally.case("a window that begins inside a block", any(|window| window.begins_inside() && window.is_in_block(window.lo)));
    tally.case("a window that ends inside a block", any(|window| window.ends_inside() && window.is_in_block(window.hi)));
    tally.case("a window of several blocks", any(|window| window.blocks() > 1));
    tally.case("a block that goes on as its window grows", any_next(|window, next| window.goes_on(next)));
    tally.case("a target that falls to a job of a window", any_next(|window, next| window.falls(next)));
}

/// Whether the windows of a chain end elsewhere for the next job of the other chains.
fn count_right_ends(tally: &mut Tally, links: &[Link], chains: &[&[Link]]) {
    let ends = |chain: &&[Link]| {
        let others = links.iter().filter(|link| link.job.chain != chain[0].job.chain);
        others.map(|link| released(chain, link.bound)).collect()
    };
    let ends: Vec<Vec<usize>> = chains.iter().map(ends).collect();
    let any = |is_met: fn(&[usize]) -> bool| ends.iter().any(|ends| ends.windows(2).any(is_met));
    tally.case("a right end that moves on for the next job", any(|two| two[0] < two[1]));
    tally.case("a right end that goes back for the next chain", any(|two| two[0] > two[1]));
}

/// Whether a job has its bound where one of another chain is released: were they to overlap, the more urgent of them would delay the other.
fn count_meetings(tally: &mut Tally, links: &[Link]) {
    let is_met = |a: &Link, b: &Link| a.job.chain != b.job.chain && a.bound == b.release;
    let any = |is_urgent: fn(u64, u64) -> bool| links.iter().any(|a| links.iter().any(|b| is_met(a, b) && is_urgent(a.job.priority, b.job.priority)));
    tally.case("a bound at the release of a job as urgent or more", any(|ended, released| ended <= released));
    tally.case("a bound at the release of a job as urgent or less", any(|ended, released| ended >= released));
}

/// Whether a job's bound comes only from pairs with a less urgent job in them.
fn count_targets(tally: &mut Tally, jobs: &[Job]) {
    let begins = blocks::begins(jobs, 3).unwrap();
    let before = |j: usize, from: u64| &jobs[j - (jobs[j].job - from) as usize..j];
    let is_lower = |j: usize, from: u64| before(j, from).iter().any(|job| job.priority < jobs[j].priority);
    tally.case("a bound by a lower target than its job", (0..jobs.len()).any(|j| begins[j].iter().all(|from| is_lower(j, *from))));
}

/// For each job and each other chain the chain's windows in all pairs that end with the job, the shortest first.
fn sweeps<'a>(chains: &[&'a [Link]]) -> Vec<Vec<Window<'a>>> {
    let mut sweeps = Vec::new();
    for own in chains {
        for chain in chains.iter().filter(|chain| chain[0].job.chain != own[0].job.chain) {
            sweeps.extend((0..own.len()).map(|j| (0..=j).rev().map(|k| Window::of(chain, &own[k..=j])).collect::<Vec<Window>>()));
        }
    }
    sweeps
}

/// How many jobs of a chain are released before a time.
fn released(chain: &[Link], time: u64) -> usize {
    chain.iter().filter(|link| link.release < time).count()
}

/// The places from lo to before hi of a chain, in a pair whose lowest priority is the target.
struct Window<'a> {
    chain: &'a [Link],
    target: u64,
    lo: usize,
    hi: usize,
}

impl Window<'_> {
    /// In a pair of jobs of another chain, given with all between them.
    fn of<'a>(chain: &'a [Link], pair: &[Link]) -> Window<'a> {
        let target = pair.iter().map(|link| link.job.priority).min().unwrap();
        let hi = released(chain, pair[pair.len() - 1].bound);
        let lo = chain[..hi].iter().filter(|link| link.bound <= pair[0].release).count();
        Window { chain, target, lo, hi }
    }

    fn is_empty(&self) -> bool {
        self.lo == self.hi
    }

    /// Whether a job on its left is purged.
    fn begins_inside(&self) -> bool {
        !self.is_empty() && self.lo > 0
    }

    /// Whether a job on its right is purged.
    fn ends_inside(&self) -> bool {
        !self.is_empty() && self.hi < self.chain.len()
    }

    fn is_urgent(&self, place: usize) -> bool {
        self.chain[place].job.priority >= self.target
    }

    /// Whether the job at a place and the one before it are of one block.
    fn is_in_block(&self, place: usize) -> bool {
        self.is_urgent(place - 1) && self.is_urgent(place)
    }

    fn blocks(&self) -> usize {
        let urgent: Vec<bool> = (self.lo..self.hi).map(|place| self.is_urgent(place)).collect();
        urgent.chunk_by(|a, b| a == b).filter(|run| run[0]).count()
    }

    /// Whether the block at its left end is longer in the next pair, of the same target.
    fn goes_on(&self, next: &Window) -> bool {
        self.target == next.target && !self.is_empty() && next.lo < self.lo && self.is_in_block(self.lo)
    }

    /// Whether one of its jobs is urgent enough in the next pair alone.
    fn falls(&self, next: &Window) -> bool {
        (self.lo..self.hi).any(|place| !self.is_urgent(place) && next.is_urgent(place))
    }
}
