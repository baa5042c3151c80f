//! Sets of jobs and what is asked of them.

use crate::{answer, counted, ffi, Delays, Job, Refused, Run, State, Ticked, Times, Trace};

/// The algorithms of Sun and Liu; a bound by ITR is at most that by CJA, which is at most that by ERT.
#[derive(Clone, Copy, Debug, PartialEq, Eq)]
pub enum Algorithm {
    Ert = 1,
    Cja = 2,
    Itr = 3,
}

/// Whether all deadlines are met.
#[derive(Clone, Copy, Debug, PartialEq, Eq)]
pub enum Verdict {
    Yes,
    No,
}

impl Verdict {
    /// The verdict of an answer, which is 0 for no.
    pub(crate) fn of(answer: u64) -> Verdict {
        if answer > 0 {
            Verdict::Yes
        } else {
            Verdict::No
        }
    }
}

/// A set of jobs that have passed the checks, chain by chain. Where it is empty, everything but admission is refused with 7.
#[derive(Clone, Copy, Debug, PartialEq, Eq)]
pub struct Set {
    jobs: [Job; Set::MAX_JOBS],
    count: usize,
}

impl Set {
    pub const MAX_JOBS: usize = 64;
    pub const MAX_CHAINS: usize = 16;

    /// The greatest length of a table's text in bytes, which is enough for its bounds text and its trace text.
    pub const MAX_TEXT: usize = 4_096;

    /// So many bytes are enough for every waveform.
    pub const MAX_WAVEFORM: usize = 128 * Set::MAX_JOBS;

    /// The set of no job, which a first chain may join.
    pub const EMPTY: Set = Set { jobs: [Job::NONE; Set::MAX_JOBS], count: 0 };

    /// The set of these jobs; refuses the first bad one, or with 7 where there is none.
    pub fn of(jobs: &[Job]) -> Result<Set, Refused> {
        // The function reads within the slice; jobs that pass are refused for the algorithm 0, which there is not.
        let checked = unsafe { ffi::cudlomer_set_verdict(jobs.as_ptr().cast(), jobs.len() * Job::NUMBERS, 0) };
        if checked != -10 {
            answer(checked)?;
        }
        let mut set = Set { count: jobs.len(), ..Set::EMPTY };
        set.jobs[..jobs.len()].copy_from_slice(jobs);
        Ok(set)
    }

    /// The set of a table; refuses a text that is none.
    pub fn read(text: &[u8]) -> Result<Set, Refused> {
        let mut set = Set::EMPTY;
        // The function reads within the slice and writes within the array, whose jobs are plain numbers.
        let read = unsafe { ffi::cudlomer_set_read(text.as_ptr(), text.len(), set.jobs.as_mut_ptr().cast(), Set::MAX_JOBS * Job::NUMBERS) };
        set.count = counted(read)?;
        Ok(set)
    }

    /// Writes the text of the set's table into a buffer, and answers how many bytes it takes; refuses with 9 where it does not fit.
    pub fn write(&self, out: &mut [u8]) -> Result<usize, Refused> {
        // The function reads within the set's jobs and writes within the slice.
        counted(unsafe { ffi::cudlomer_set_write(self.numbers(), self.length(), out.as_mut_ptr(), out.len()) })
    }

    /// The jobs, chain by chain.
    pub fn jobs(&self) -> &[Job] {
        &self.jobs[..self.count]
    }

    /// Whether all deadlines are met by the algorithm with a further chain, which on yes is the set's last; its jobs' own chain and job numbers are
    /// ignored. Refuses the first bad one of the joined jobs, then with 7 where the chain has none.
    pub fn admit(&mut self, chain: &[Job], algorithm: Algorithm) -> Result<Verdict, Refused> {
        let (room, held) = (Set::MAX_JOBS * Job::NUMBERS, self.count as u64);
        let (further, length) = (chain.as_ptr().cast(), chain.len() * Job::NUMBERS);
        // The function reads within the slice and the array, and writes within the array, whose jobs are plain numbers.
        let joined = counted(unsafe { ffi::cudlomer_set_admit(self.jobs.as_mut_ptr().cast(), room, held, further, length, algorithm as u64) })?;
        if joined > 0 {
            self.count = joined;
        }
        Ok(Verdict::of(joined as u64))
    }

    /// By when each job is complete in every run, by the algorithm.
    pub fn bounds(&self, algorithm: Algorithm) -> Result<Times, Refused> {
        let mut bounds = Times::NONE;
        let out = bounds.ticks.as_mut_ptr();
        // The function reads within the set's jobs and writes within the array.
        bounds.count = counted(unsafe { ffi::cudlomer_set_bounds(self.numbers(), self.length(), algorithm as u64, out, Set::MAX_JOBS) })?;
        Ok(bounds)
    }

    /// What the bound of each job by the algorithm comes from: the job from which its sum begins, by ERT the job itself, and of each other chain the
    /// block that delays it, of those with the largest sum the earliest. By ITR a block is named whole, though only the jobs are added whose spans overlap.
    ///
    /// ```
    /// # use cudlomer::{Algorithm, Block, Job, Set};
    /// let first = Job { chain: 1, job: 1, release: 0, priority: 1, least: 3, most: 3, deadline: 9 };
    /// let set = Set::of(&[first, Job { job: 2, priority: 0, ..first }, Job { chain: 2, ..first }])?;
    /// let delays = set.blocks(Algorithm::Itr)?;
    /// assert_eq!((delays.from(1), delays.block(1, 2)), (Some(1), Some(Block { first: 1, last: 1 })));
    /// assert_eq!((delays.from(2), delays.block(2, 1)), (Some(1), Some(Block { first: 1, last: 1 })));
    /// # Ok::<(), cudlomer::Refused>(())
    /// ```
    pub fn blocks(&self, algorithm: Algorithm) -> Result<Delays, Refused> {
        let chains = self.jobs().last().map_or(0, |job| job.chain as usize);
        let mut delays = Delays { numbers: [0; Delays::MAX_NUMBERS], jobs: self.count, chains };
        let out = delays.numbers.as_mut_ptr();
        // The function reads within the set's jobs and writes within the array.
        counted(unsafe { ffi::cudlomer_set_blocks(self.numbers(), self.length(), algorithm as u64, out, Delays::MAX_NUMBERS) })?;
        Ok(delays)
    }

    /// Whether all deadlines are met by the algorithm.
    pub fn verdict(&self, algorithm: Algorithm) -> Result<Verdict, Refused> {
        // The function reads within the set's jobs.
        answer(unsafe { ffi::cudlomer_set_verdict(self.numbers(), self.length(), algorithm as u64) }).map(Verdict::of)
    }

    /// How many rounds ITR takes.
    pub fn rounds(&self) -> Result<u64, Refused> {
        // The function reads within the set's jobs.
        answer(unsafe { ffi::cudlomer_set_rounds(self.numbers(), self.length()) })
    }

    /// Applies one tick to a state: of the jobs released by its time whose predecessor is complete, the most urgent runs, among equals the one ready
    /// since the earliest time, then that of the lowest chain. A job is ready since its release or its predecessor's completion, whichever is later.
    /// Refuses with 8 where the running times do not fit the set, and with 11 where the state cannot be: its time is beyond `State::LAST_TIME`; or a
    /// job has more work than its time, or work though its predecessor is not complete or the time is not after its release; or a complete job's
    /// completion is later than the time or not after its release.
    ///
    /// ```
    /// # use cudlomer::{Job, Set, State, Ticked};
    /// let later = Job { chain: 1, job: 1, release: 2, priority: 1, least: 3, most: 3, deadline: 7 };
    /// let set = Set::of(&[later, Job { chain: 2, release: 0, least: 4, most: 4, ..later }])?;
    /// let times = set.times(|job| job.most);
    /// let mut state = State::START;
    /// while set.tick(&times, &mut state)? != Ticked::Finished {}
    /// assert_eq!(state.completions[..2], [7, 4]);
    /// # Ok::<(), cudlomer::Refused>(())
    /// ```
    pub fn tick(&self, times: &Times, state: &mut State) -> Result<Ticked, Refused> {
        let lent: *mut State = state;
        // The function reads within the set's jobs and the times, and writes within the state, which is plain numbers.
        let ticked = unsafe {
            ffi::cudlomer_set_tick(self.numbers(), self.length(), times.ticks.as_ptr(), times.count, lent.cast(), State::NUMBERS)
        };
        answer(ticked).map(Ticked::of)
    }

    /// The run from time 0, which goes from one release or completion to the next, however long it is; refuses with 8 where the running times do not
    /// fit the set.
    pub fn run(&self, times: &Times) -> Result<Run, Refused> {
        let mut completions = Times { count: self.count, ..Times::NONE };
        let out = completions.ticks.as_mut_ptr();
        // The function reads within the set's jobs and the times, and writes within the array.
        let end = unsafe { ffi::cudlomer_set_run(self.numbers(), self.length(), times.ticks.as_ptr(), times.count, out, Set::MAX_JOBS) };
        Ok(Run { end: answer(end)?, completions })
    }

    /// The trace of the run from time 0; refuses with 8 where the running times do not fit the set.
    pub fn trace(&self, times: &Times) -> Result<Trace, Refused> {
        let mut trace = Trace::NONE;
        let out = trace.rows.as_mut_ptr().cast();
        // The function reads within the set's jobs and the times, and writes within the array, whose rows are plain numbers.
        let rows = unsafe { ffi::cudlomer_set_trace(self.numbers(), self.length(), times.ticks.as_ptr(), times.count, out, Trace::NUMBERS) };
        trace.count = counted(rows)?;
        Ok(trace)
    }

    /// How many steps the run from time 0 takes: one for each different time after 0 at which a job is released, also where it cannot run yet, or is
    /// complete, at most twice as many as the set has jobs. Refuses with 8 where the running times do not fit the set.
    ///
    /// ```
    /// # use cudlomer::{Job, Set};
    /// let set = Set::of(&[Job { chain: 1, job: 1, release: 1_000_000_000, priority: 1, least: 3, most: 1_000_000, deadline: 0 }])?;
    /// assert_eq!(set.steps(&set.times(|job| job.most)), Ok(2));
    /// # Ok::<(), cudlomer::Refused>(())
    /// ```
    pub fn steps(&self, times: &Times) -> Result<u64, Refused> {
        // The function reads within the set's jobs and the times.
        answer(unsafe { ffi::cudlomer_set_steps(self.numbers(), self.length(), times.ticks.as_ptr(), times.count) })
    }

    /// Writes the run from time 0 into a buffer as a value change dump of IEEE 1364, in which a wire for each job is 1 while it runs, and answers how
    /// many bytes it takes; refuses with 8 where the running times do not fit the set, and with 9 where the dump does not fit the buffer.
    ///
    /// ```
    /// # use cudlomer::{Job, Set};
    /// let set = Set::of(&[Job { chain: 1, job: 1, release: 5, priority: 1, least: 3, most: 7, deadline: 12 }])?;
    /// let mut out = [0; Set::MAX_WAVEFORM];
    /// let written = set.waveform(&set.times(|job| job.least), &mut out)?;
    /// assert!(out[..written].ends_with(b"#0\n$dumpvars\n0!\n$end\n#5\n1!\n#8\n0!\n"));
    /// # Ok::<(), cudlomer::Refused>(())
    /// ```
    pub fn waveform(&self, times: &Times, out: &mut [u8]) -> Result<usize, Refused> {
        let (lent, room) = (out.as_mut_ptr(), out.len());
        // The function reads within the set's jobs and the times, and writes within the slice.
        counted(unsafe { ffi::cudlomer_set_waveform(self.numbers(), self.length(), times.ticks.as_ptr(), times.count, lent, room) })
    }

    pub(crate) fn numbers(&self) -> *const u64 {
        self.jobs.as_ptr().cast()
    }

    pub(crate) fn length(&self) -> usize {
        self.count * Job::NUMBERS
    }
}
