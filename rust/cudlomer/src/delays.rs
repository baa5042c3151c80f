//! What bounds come from: whose jobs delay which job.

use crate::Set;

/// A block of a chain by the numbers of its first and its last job: consecutive jobs, each urgent enough to delay another job, and no longer run of such
/// jobs has them.
#[derive(Clone, Copy, Debug, PartialEq, Eq)]
pub struct Block {
    pub first: u64,
    pub last: u64,
}

/// What the bound of each job of a set comes from.
#[derive(Clone, Copy, Debug, PartialEq, Eq)]
pub struct Delays {
    pub(crate) numbers: [u64; Delays::MAX_NUMBERS],
    pub(crate) jobs: usize,
    pub(crate) chains: usize,
}

impl Delays {
    /// A number for each job, and two for each job and chain.
    pub(crate) const MAX_NUMBERS: usize = Set::MAX_JOBS * (2 * Set::MAX_CHAINS + 1);

    /// The number of the job from which the sum of a bound begins, for the job at a place, from 0 on; none where the set has no such place.
    pub fn from(&self, place: usize) -> Option<u64> {
        Some(self.of(place)?[0])
    }

    /// The block of a chain, from 1 on, that delays the job at a place, from 0 on; none where the chain has none, of the job's own chain, and where the set
    /// has no such place or chain.
    pub fn block(&self, place: usize, chain: u64) -> Option<Block> {
        let named = self.of(place)?[1..].chunks_exact(2).nth(chain.checked_sub(1)? as usize)?;
        (named[0] > 0).then_some(Block { first: named[0], last: named[1] })
    }

    /// The numbers of the job at a place.
    fn of(&self, place: usize) -> Option<&[u64]> {
        let each = 2 * self.chains + 1;
        self.numbers[..self.jobs * each].chunks_exact(each).nth(place)
    }
}
