//! A job.

/// A job; in memory its seven numbers, in the order of a table's columns.
#[repr(C)]
#[derive(Clone, Copy, Debug, PartialEq, Eq)]
pub struct Job {
    pub chain: u64,
    pub job: u64,
    pub release: u64,
    pub priority: u64,
    pub least: u64,
    pub most: u64,
    pub deadline: u64,
}

impl Job {
    /// All numbers 0, which is no job.
    pub const NONE: Job = Job { chain: 0, job: 0, release: 0, priority: 0, least: 0, most: 0, deadline: 0 };

    /// How many numbers a job is.
    pub(crate) const NUMBERS: usize = size_of::<Job>() / size_of::<u64>();
}
