//! Whose jobs delay a job: the blocks of other chains that its bound counts, and the job from which the bound's sum begins.

use crate::{bounds, machine, Job};

/// A block by the numbers of its first and its last job, and the sum over its jobs that count.
#[derive(Clone, Copy, Debug, PartialEq, Eq)]
pub struct Block {
    pub first: u64,
    pub last: u64,
    pub sum: u64,
}

/// What a bound comes from: the number of the job from which its sum begins, and of each chain, from 1 on, all blocks, none of the job's own.
#[derive(Clone, Debug, PartialEq, Eq)]
pub struct Delay {
    pub from: u64,
    pub blocks: Vec<Vec<Block>>,
}

impl Delay {
    /// The block taken of the chain at a place: of those with the largest sum the earliest.
    pub fn taken(&self, place: usize) -> Option<Block> {
        let largest = self.blocks[place].iter().map(|block| block.sum).max()?;
        self.blocks[place].iter().copied().find(|block| block.sum == largest)
    }

    /// The numbers of the first and the last job of the block taken of each chain, 0 and 0 where it has none.
    pub fn named(&self) -> Vec<[u64; 2]> {
        (0..self.blocks.len()).map(|place| self.taken(place).map_or([0, 0], |block| [block.first, block.last])).collect()
    }
}

/// A job with its effective release and its bound.
#[derive(Clone, Copy)]
struct Link {
    job: Job,
    release: u64,
    bound: u64,
}

type Chains<'a> = [&'a [Link]];

/// A pair of jobs of one chain, with all between them: a sum begins at the first and is for the bound of the last. With `spans` only those jobs of other
/// chains count whose span overlaps with the pair's.
struct Pair<'a> {
    links: &'a [Link],
    spans: bool,
}

/// What each bound by algorithm 1 ERT, 2 CJA or 3 ITR comes from, in table order; another is refused with 10.
pub fn by(jobs: &[Job], algorithm: u64) -> Result<Vec<Delay>, u8> {
    each(jobs, algorithm, |pairs, chains| pairs.next().unwrap().delay(chains))
}

/// The numbers of all jobs from which a sum begins that is the bound, for each job; the first decides.
pub fn begins(jobs: &[Job], algorithm: u64) -> Result<Vec<Vec<u64>>, u8> {
    each(jobs, algorithm, |pairs, _| pairs.map(|pair| pair.first().job.job).collect())
}

/// What is made, for each job, of the pairs that give its bound, and of all chains.
fn each<T>(jobs: &[Job], algorithm: u64, make: impl Fn(&mut dyn Iterator<Item = Pair>, &Chains) -> T) -> Result<Vec<T>, u8> {
    let figures = machine::releases(jobs).into_iter().zip(bounds::by(jobs, algorithm)?);
    let links: Vec<Link> = jobs.iter().zip(figures).map(|(&job, (release, bound))| Link { job, release, bound }).collect();
    let chains: Vec<&[Link]> = links.chunk_by(|a, b| a.job.chain == b.job.chain).collect();
    let up_to = chains.iter().flat_map(|chain| (0..chain.len()).map(|j| &chain[..=j]));
    Ok(up_to.map(|links| make(&mut pairs(&chains, links, algorithm), &chains)).collect())
}

/// Of a chain up to a job the pairs that give its bound, the longest first: by ERT the job alone, else each whose sum is the bound.
fn pairs<'a>(chains: &'a Chains<'a>, links: &'a [Link], algorithm: u64) -> impl Iterator<Item = Pair<'a>> {
    let last = links.len() - 1;
    let pairs = (0..=last).map(move |k| Pair { links: &links[k..], spans: algorithm == 3 });
    pairs.filter(move |pair| if algorithm == 1 { pair.links.len() == 1 } else { pair.sum(chains) == links[last].bound })
}

impl Pair<'_> {
    fn first(&self) -> &Link {
        &self.links[0]
    }

    fn last(&self) -> &Link {
        &self.links[self.links.len() - 1]
    }

    fn is_own(&self, chain: &[Link]) -> bool {
        chain[0].job.chain == self.first().job.chain
    }

    fn counts(&self, other: &Link) -> bool {
        !self.spans || self.first().release < other.bound && other.release < self.last().bound
    }

    /// The blocks of a chain: its longest runs of jobs at least as urgent as the pair's lowest.
    fn blocks<'a>(&'a self, chain: &'a [Link]) -> impl Iterator<Item = Block> + 'a {
        let lowest = self.links.iter().map(|link| link.job.priority).min().unwrap();
        let is_urgent = move |link: &Link| link.job.priority >= lowest;
        let runs = chain.chunk_by(move |a, b| is_urgent(a) == is_urgent(b)).filter(move |run| is_urgent(&run[0]));
        runs.map(|run| Block { first: run[0].job.job, last: run[run.len() - 1].job.job, sum: self.counted(run) })
    }

    fn counted(&self, run: &[Link]) -> u64 {
        run.iter().filter(|link| self.counts(link)).map(|link| link.job.most).sum()
    }

    /// Release, running times and the largest block of each other chain.
    fn sum(&self, chains: &Chains) -> u64 {
        let demand: u64 = self.links.iter().map(|link| link.job.most).sum();
        let largest = |chain: &&[Link]| self.blocks(chain).map(|block| block.sum).max().unwrap_or(0);
        self.first().release + demand + chains.iter().filter(|chain| !self.is_own(chain)).map(largest).sum::<u64>()
    }

    fn delay(&self, chains: &Chains) -> Delay {
        let blocks = |chain: &&[Link]| if self.is_own(chain) { vec![] } else { self.blocks(chain).collect() };
        Delay { from: self.first().job.job, blocks: chains.iter().map(blocks).collect() }
    }
}

#[cfg(test)]
mod tests {
    use super::*;

    fn job((chain, job): (u64, u64), release: u64, priority: u64, most: u64) -> Job {
        Job { chain, job, release, priority, least: 1, most, deadline: 100 }
    }

    /// From, and the block taken of each chain, for each job.
    fn named(jobs: &[Job], algorithm: u64) -> Vec<(u64, Vec<[u64; 2]>)> {
        by(jobs, algorithm).unwrap().iter().map(|delay| (delay.from, delay.named())).collect()
    }

    /// Jobs 1 and 3 of chain 2 are two blocks that sum to the same.
    #[test]
    fn the_earliest_of_equal_blocks_is_taken() {
        let jobs = [job((1, 1), 0, 1, 2), job((2, 1), 0, 1, 4), job((2, 2), 0, 0, 9), job((2, 3), 0, 1, 4)];
        assert_eq!(named(&jobs, 2)[0], (1, vec![[0, 0], [1, 1]]));
        assert_eq!(by(&jobs, 2).unwrap()[0].blocks[1].len(), 2);
    }

    /// By ITR chain 2 is complete before chain 1 is released, and its block is named all the same.
    #[test]
    fn a_block_of_which_no_job_counts() {
        let jobs = [job((1, 1), 50, 1, 2), job((2, 1), 0, 1, 4), job((2, 2), 0, 2, 4)];
        assert_eq!(named(&jobs, 3)[0], (1, vec![[0, 0], [1, 2]]));
        assert_eq!(by(&jobs, 3).unwrap()[0].taken(1).unwrap().sum, 0);
    }

    #[test]
    fn a_chain_that_is_not_urgent_has_no_block() {
        let jobs = [job((1, 1), 0, 1, 2), job((2, 1), 0, 0, 4)];
        assert_eq!([1, 2, 3].map(|algorithm| named(&jobs, algorithm)[0].clone()), [(); 3].map(|_| (1, vec![[0, 0], [0, 0]])));
        assert_eq!((named(&jobs[..1], 3), by(&jobs, 4)), (vec![(1, vec![[0, 0]])], Err(10)));
    }

    /// The sums of job 2 from job 1 and from itself are the same.
    #[test]
    fn the_first_of_equal_sums_decides() {
        let jobs = [job((1, 1), 0, 1, 5), job((1, 2), 5, 1, 5)];
        assert_eq!((begins(&jobs, 2).unwrap(), by(&jobs, 2).unwrap()[1].from), (vec![vec![1], vec![1, 2]], 1));
    }

    /// The sum of job 2 begins at job 1, whose priority lets chain 2 in; by ERT it begins at the job itself, at its own priority.
    #[test]
    fn a_sum_begins_at_an_earlier_job() {
        let jobs = [job((1, 1), 0, 1, 5), job((1, 2), 0, 3, 5), job((2, 1), 0, 2, 4)];
        let second = |algorithm| named(&jobs, algorithm)[1].clone();
        let at_job_1 = (1, vec![[0, 0], [1, 1]]);
        assert_eq!((second(1), second(2), second(3)), ((2, vec![[0, 0], [0, 0]]), at_job_1.clone(), at_job_1));
    }
}
