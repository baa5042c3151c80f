//! The two sides that are held against each other, function by function: the part over slices, and what the reference wants of it.

mod part;
mod wanted;

pub use part::PART;
pub use wanted::{jobs_of, numbers_of, WANTED};

/// A number from 0 on, or the number of a refusal.
pub type Answer = Result<i64, i64>;

/// Two texts that are recordings or not.
pub type Pair<'a> = [&'a [u8]; 2];

/// How many numbers a machine's state is: the time, and for each of 64 jobs its work and its completion.
pub const STATE: usize = 129;

/// Where among a state's numbers the work of the job at a place stands.
pub fn work_place(place: usize) -> usize {
    1 + place
}

/// Where its completion stands.
pub fn completion_place(place: usize) -> usize {
    65 + place
}

/// The functions on texts, then those on sets.
pub struct Side {
    pub bounds: fn(&[u8], &mut [u8]) -> Answer,
    pub trace: fn(&[u8], &mut [u8]) -> Answer,
    pub verdict: fn(&[u8], u8) -> Answer,
    pub rounds: fn(&[u8]) -> Answer,
    pub set_read: fn(&[u8], &mut [u64]) -> Answer,
    pub set_write: fn(&[u64], &mut [u8]) -> Answer,
    pub set_bounds: fn(&[u64], u64, &mut [u64]) -> Answer,
    pub set_blocks: fn(&[u64], u64, &mut [u64]) -> Answer,
    pub set_verdict: fn(&[u64], u64) -> Answer,
    pub set_rounds: fn(&[u64]) -> Answer,
    pub set_admit: fn(&mut [u64], u64, &[u64], u64) -> Answer,
    pub set_tick: fn(&[u64], &[u64], &mut [u64]) -> Answer,
    pub set_run: fn(&[u64], &[u64], &mut [u64]) -> Answer,
    pub set_trace: fn(&[u64], &[u64], &mut [u64]) -> Answer,
    pub set_steps: fn(&[u64], &[u64]) -> Answer,
    pub set_waveform: fn(&[u64], &[u64], &mut [u8]) -> Answer,
    pub set_compare: fn(&[u64], Pair, &mut [u64]) -> Answer,
}
