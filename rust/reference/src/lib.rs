//! The table, the bounds, the blocks that they count, the machine, its waveforms and recordings in plain Rust, from the paper, the scope and its
//! changes alone. It shares nothing with the proved part.

pub mod blocks;
pub mod bounds;
pub mod dump;
pub mod machine;
pub mod recording;
pub mod set;
pub mod table;
pub mod text;
pub mod waveform;

/// A record of the table.
#[derive(Clone, Copy, Debug, PartialEq, Eq)]
pub struct Job {
    pub chain: u64,
    pub job: u64,
    pub release: u64,
    pub priority: u64,
    pub least: u64,
    pub most: u64,
    pub deadline: u64,
}

impl Job {
    /// A job from its numbers in the order of a table's columns; one that is missing is 0.
    pub fn of(numbers: &[u64]) -> Job {
        let n = |i: usize| numbers.get(i).copied().unwrap_or(0);
        Job { chain: n(0), job: n(1), release: n(2), priority: n(3), least: n(4), most: n(5), deadline: n(6) }
    }

    /// Its numbers in the order of a table's columns.
    pub fn numbers(&self) -> [u64; 7] {
        [self.chain, self.job, self.release, self.priority, self.least, self.most, self.deadline]
    }
}
