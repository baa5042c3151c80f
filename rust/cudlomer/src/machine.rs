//! What the machine takes and answers: times, states, runs and traces.

use crate::{Job, Set};
use core::ops::Index;

/// A time for each job of a set, in the set's order: how long it runs, by when it is complete, or when it is.
#[derive(Clone, Copy, Debug, PartialEq, Eq)]
pub struct Times {
    pub(crate) ticks: [u64; Set::MAX_JOBS],
    pub(crate) count: usize,
}

impl Times {
    pub(crate) const NONE: Times = Times { ticks: [0; Set::MAX_JOBS], count: 0 };

    /// The times in the set's order.
    pub fn iter(&self) -> impl Iterator<Item = u64> + '_ {
        self.ticks[..self.count].iter().copied()
    }
}

impl Index<usize> for Times {
    type Output = u64;

    fn index(&self, place: usize) -> &u64 {
        &self.ticks[..self.count][place]
    }
}

/// The machine's state: the time, the ticks of work done of each job, and when each complete job was completed. The completion of a job that is not
/// complete is not read, and stays until the tick that completes the job; what stands beyond the jobs is neither read nor changed.
#[repr(C)]
#[derive(Clone, Copy, Debug, PartialEq, Eq)]
pub struct State {
    pub time: u64,
    pub work: [u64; Set::MAX_JOBS],
    pub completions: [u64; Set::MAX_JOBS],
}

impl State {
    /// Time 0, no work done and no completion.
    pub const START: State = State { time: 0, work: [0; Set::MAX_JOBS], completions: [0; Set::MAX_JOBS] };

    /// The greatest time of a state, which no run from time 0 reaches.
    pub const LAST_TIME: u64 = 2_000_000_000;

    /// How many numbers a state is.
    pub(crate) const NUMBERS: usize = size_of::<State>() / size_of::<u64>();
}

/// What a tick answers.
#[derive(Clone, Copy, Debug, PartialEq, Eq)]
pub enum Ticked {
    /// This job of this chain ran.
    Ran { chain: u64, job: u64 },
    /// No job was ready.
    Idle,
    /// All jobs were complete before, and the state stays.
    Finished,
}

impl Ticked {
    pub(crate) fn of(answer: u64) -> Ticked {
        match answer {
            0 => Ticked::Idle,
            1 => Ticked::Finished,
            _ => Ticked::Ran { chain: answer / 65_536, job: answer % 65_536 },
        }
    }
}

/// A run from time 0: when each job is complete, and when all are.
#[derive(Clone, Copy, Debug, PartialEq, Eq)]
pub struct Run {
    pub completions: Times,
    pub end: u64,
}

/// A longest run of one job, from one time to another.
#[repr(C)]
#[derive(Clone, Copy, Debug, PartialEq, Eq)]
pub struct Row {
    pub chain: u64,
    pub job: u64,
    pub from: u64,
    pub to: u64,
}

/// The rows of a run from time 0.
#[derive(Clone, Copy, Debug)]
pub struct Trace {
    pub(crate) rows: [Row; Trace::MAX_ROWS],
    pub(crate) count: usize,
}

impl Trace {
    /// Twice as many as a set has jobs are enough for every run.
    pub const MAX_ROWS: usize = 2 * Set::MAX_JOBS;

    pub(crate) const NONE: Trace = Trace { rows: [Row { chain: 0, job: 0, from: 0, to: 0 }; Trace::MAX_ROWS], count: 0 };

    /// How many numbers the places for rows are.
    pub(crate) const NUMBERS: usize = size_of::<[Row; Trace::MAX_ROWS]>() / size_of::<u64>();

    /// The rows, the earliest first.
    pub fn rows(&self) -> &[Row] {
        &self.rows[..self.count]
    }
}

impl Set {
    /// A time for each job, as worked out from it: `set.times(|job| job.most)`.
    pub fn times(&self, time: impl Fn(&Job) -> u64) -> Times {
        let mut times = Times { count: self.jobs().len(), ..Times::NONE };
        times.ticks.iter_mut().zip(self.jobs()).for_each(|(ticks, job)| *ticks = time(job));
        times
    }
}
