//! The machine: at each tick the most urgent ready job runs, among equals the one ready since the earliest time, then that of the lowest chain. A run
//! goes through it tick by tick, or from one release or completion to the next.

use crate::{set, Job};
use std::cmp::Reverse;
use std::collections::BTreeSet;

/// The time, the ticks of work done of each job, and the completion of each complete one; what stands beyond the jobs means nothing.
#[derive(Clone, Debug, PartialEq, Eq)]
pub struct State {
    pub time: u64,
    pub work: Vec<u64>,
    pub completions: Vec<u64>,
}

impl State {
    /// Time 0 with no work done and no completion, for so many jobs.
    pub fn start(count: usize) -> State {
        State { time: 0, work: vec![0; count], completions: vec![0; count] }
    }
}

/// What a tick answers.
#[derive(Clone, Copy, Debug, PartialEq, Eq)]
pub enum Ticked {
    Ran { chain: u64, job: u64 },
    Idle,
    Finished,
}

/// A longest run of one job.
#[derive(Clone, Copy, Debug, PartialEq, Eq)]
pub struct Span {
    pub chain: u64,
    pub job: u64,
    pub from: u64,
    pub to: u64,
}

/// The refusals of the set, then 8: one running time for each job, from its least to its most.
pub fn check(jobs: &[Job], times: &[u64]) -> Result<(), u8> {
    set::check(jobs)?;
    let fits = times.len() == jobs.len() && jobs.iter().zip(times).all(|(j, time)| (j.least..=j.most).contains(time));
    if fits {
        Ok(())
    } else {
        Err(8)
    }
}

/// One tick, of a set and running times that have passed the check; a state that cannot be is refused with 11.
pub fn tick(jobs: &[Job], times: &[u64], state: &mut State) -> Result<Ticked, u8> {
    let machine = Machine::of(jobs, times);
    if !machine.possible(state) {
        return Err(11);
    }
    if machine.finished(state) {
        return Ok(Ticked::Finished);
    }
    let picked = machine.pick(state);
    machine.advance(state, picked, 1);
    Ok(picked.map_or(Ticked::Idle, |i| Ticked::Ran { chain: jobs[i].chain, job: jobs[i].job }))
}

/// The trace of the run in which each job takes the time given for it. What is picked at a time stays so until a job is released or complete.
pub fn trace(jobs: &[Job], times: &[u64]) -> Vec<Span> {
    let machine = Machine::of(jobs, times);
    machine.trace(|state, picked| machine.next_event(state, picked) - state.time)
}

/// The same, tick by tick.
pub fn trace_by_ticks(jobs: &[Job], times: &[u64]) -> Vec<Span> {
    Machine::of(jobs, times).trace(|_, _| 1)
}

/// How many different times after 0 there are at which a job is released or complete in that run.
pub fn steps(jobs: &[Job], times: &[u64]) -> usize {
    events(jobs, times).into_iter().filter(|time| *time > 0).count()
}

/// The different times at which a job is released or complete in that run.
pub fn events(jobs: &[Job], times: &[u64]) -> BTreeSet<u64> {
    releases(jobs).into_iter().chain(completions(jobs, times)).collect()
}

/// When each job is complete in that run: at the end of its last span.
pub fn completions(jobs: &[Job], times: &[u64]) -> Vec<u64> {
    let spans = trace(jobs, times);
    let last = |j: &Job| spans.iter().rev().find(|s| (s.chain, s.job) == (j.chain, j.job)).unwrap().to;
    jobs.iter().map(last).collect()
}

/// The effective release of each job: for a chain's first its own, for a later one no earlier than its predecessor's and that one's least together.
pub fn releases(jobs: &[Job]) -> Vec<u64> {
    let mut releases: Vec<u64> = Vec::new();
    for (i, j) in jobs.iter().enumerate() {
        let earliest = if j.job == 1 { 0 } else { releases[i - 1] + jobs[i - 1].least };
        releases.push(j.release.max(earliest));
    }
    releases
}

/// A set with its effective releases and a running time for each job.
struct Machine<'a> {
    jobs: &'a [Job],
    times: &'a [u64],
    releases: Vec<u64>,
}

impl Machine<'_> {
    fn of<'a>(jobs: &'a [Job], times: &'a [u64]) -> Machine<'a> {
        Machine { jobs, times, releases: releases(jobs) }
    }

    fn predecessor(&self, i: usize) -> Option<usize> {
        (self.jobs[i].job > 1).then(|| i - 1)
    }

    fn complete(&self, state: &State, i: usize) -> bool {
        state.work[i] == self.times[i]
    }

    fn finished(&self, state: &State) -> bool {
        (0..self.jobs.len()).all(|i| self.complete(state, i))
    }

    /// Its predecessor, where it has one, is complete.
    fn free(&self, state: &State, i: usize) -> bool {
        self.predecessor(i).is_none_or(|before| self.complete(state, before))
    }

    fn ready(&self, state: &State, i: usize) -> bool {
        self.releases[i] <= state.time && !self.complete(state, i) && self.free(state, i)
    }

    /// Since when a ready job is ready: its release, or its predecessor's completion where that is later.
    fn ready_since(&self, state: &State, i: usize) -> u64 {
        self.predecessor(i).map_or(0, |before| state.completions[before]).max(self.releases[i])
    }

    fn pick(&self, state: &State) -> Option<usize> {
        let order = |i: &usize| (Reverse(self.jobs[*i].priority), self.ready_since(state, *i), self.jobs[*i].chain);
        (0..self.jobs.len()).filter(|i| self.ready(state, *i)).min_by_key(order)
    }

    /// So many ticks pass, in which the picked job runs; the tick that completes it writes when that was.
    fn advance(&self, state: &mut State, picked: Option<usize>, ticks: u64) {
        state.time += ticks;
        if let Some(i) = picked {
            state.work[i] += ticks;
            if self.complete(state, i) {
                state.completions[i] = state.time;
            }
        }
    }

    /// The first release after the state's time, or the completion of the picked job where that is earlier.
    fn next_event(&self, state: &State, picked: Option<usize>) -> u64 {
        let completion = picked.map(|i| state.time + self.times[i] - state.work[i]);
        self.releases.iter().copied().filter(|release| *release > state.time).chain(completion).min().unwrap()
    }

    /// The trace of the run that goes on, from each state and what is picked there, for so many ticks.
    fn trace(&self, ticks: impl Fn(&State, Option<usize>) -> u64) -> Vec<Span> {
        let mut state = State::start(self.jobs.len());
        let mut spans: Vec<Span> = Vec::new();
        while !self.finished(&state) {
            let (from, picked) = (state.time, self.pick(&state));
            let passed = ticks(&state, picked);
            self.advance(&mut state, picked, passed);
            let Some(Job { chain, job, .. }) = picked.map(|i| self.jobs[i]) else { continue };
            match spans.last_mut() {
                Some(s) if (s.chain, s.job, s.to) == (chain, job, from) => s.to = state.time,
                _ => spans.push(Span { chain, job, from, to: state.time }),
            }
        }
        spans
    }

    /// The time is within its limit, and the work of each job can be, and the completion of each complete one.
    fn possible(&self, state: &State) -> bool {
        let completed = |i| !self.complete(state, i) || self.completion_possible(state, i);
        state.time <= 2_000_000_000 && (0..self.jobs.len()).all(|i| self.work_possible(state, i) && completed(i))
    }

    /// No more work than its running time, and work only with its predecessor complete and after its release.
    fn work_possible(&self, state: &State, i: usize) -> bool {
        state.work[i] <= self.times[i] && (state.work[i] == 0 || self.free(state, i) && self.releases[i] < state.time)
    }

    /// After its release, and not later than the time.
    fn completion_possible(&self, state: &State, i: usize) -> bool {
        self.releases[i] < state.completions[i] && state.completions[i] <= state.time
    }
}

#[cfg(test)]
mod tests {
    use super::*;

    const P4: Job = Job { chain: 1, job: 1, release: 5, priority: 1, least: 3, most: 7, deadline: 12 };

    /// A job of the least time 1, so that its successor's release is hardly put off.
    fn job((chain, job): (u64, u64), release: u64, priority: u64, most: u64) -> Job {
        Job { chain, job, release, priority, least: 1, most, deadline: 100 }
    }

    /// The rows of the run with all most times; tick by tick they are the same, and so are the completions.
    fn rows(jobs: &[Job]) -> Vec<[u64; 4]> {
        let most: Vec<u64> = jobs.iter().map(|j| j.most).collect();
        let mut state = State::start(jobs.len());
        while tick(jobs, &most, &mut state).unwrap() != Ticked::Finished {}
        assert_eq!((&state.work, &state.completions), (&most, &completions(jobs, &most)));
        assert_eq!(trace(jobs, &most), trace_by_ticks(jobs, &most));
        trace(jobs, &most).iter().map(|s| [s.chain, s.job, s.from, s.to]).collect()
    }

    /// P4 with the running time 3, tick by tick and as a whole.
    #[test]
    fn a_run_tick_by_tick() {
        let mut state = State::start(1);
        let ticks: Vec<Ticked> = (0..9).map(|_| tick(&[P4], &[3], &mut state).unwrap()).collect();
        assert_eq!(ticks, [vec![Ticked::Idle; 5], vec![Ticked::Ran { chain: 1, job: 1 }; 3], vec![Ticked::Finished]].concat());
        assert_eq!(state, State { time: 8, work: vec![3], completions: vec![8] });
        assert_eq!(completions(&[P4], &[3]), [8]);
        assert_eq!((check(&[P4], &[2]), check(&[P4], &[3, 3]), check(&[], &[])), (Err(8), Err(8), Err(7)));
    }

    fn steps_with_most(jobs: &[Job]) -> usize {
        steps(jobs, &jobs.iter().map(|j| j.most).collect::<Vec<u64>>())
    }

    /// Time 0 is no step, and several events at one time are one.
    #[test]
    fn steps_at_different_times_after_0() {
        assert_eq!((steps(&[P4], &[3]), steps_with_most(&[job((1, 1), 0, 1, 3)])), (2, 1));
        let second = |release| steps_with_most(&[job((1, 1), 0, 1, 3), job((2, 1), release, 1, 2)]);
        assert_eq!([0, 1, 3, 4].map(second), [2, 3, 2, 3]);
    }

    /// Job 2 is released at 1, and runs once job 1 is complete at 3.
    #[test]
    fn a_step_at_the_release_of_a_job_that_cannot_run_yet() {
        assert_eq!(steps_with_most(&[job((1, 1), 0, 1, 3), job((1, 2), 0, 1, 2)]), 3);
    }

    /// 64 jobs of the most time, the last 32 released last of all.
    #[test]
    fn a_long_run() {
        let jobs = |chain, release| (1..=32).map(move |place| job((chain, place), release, 1, 1_000_000));
        let jobs: Vec<Job> = jobs(1, 0).chain(jobs(2, 1_000_000_000)).collect();
        let most = [1_000_000; 64];
        let end = trace(&jobs, &most).last().unwrap().to;
        assert_eq!((steps(&jobs, &most), trace(&jobs, &most).len(), end), (127, 64, 1_032_000_000));
    }

    #[test]
    fn an_equal_that_is_ready_earlier_goes_first() {
        assert_eq!(rows(&[job((1, 1), 2, 1, 3), job((2, 1), 0, 1, 4)]), [[2, 1, 0, 4], [1, 1, 4, 7]]);
        assert_eq!(rows(&[job((1, 1), 0, 1, 3), job((2, 1), 0, 1, 4)]), [[1, 1, 0, 3], [2, 1, 3, 7]]);
    }

    /// Chain 3 interrupts chain 2, which then goes on before its equal of chain 1.
    #[test]
    fn an_interrupted_job_keeps_its_place() {
        let jobs = [job((1, 1), 1, 1, 2), job((2, 1), 0, 1, 4), job((3, 1), 2, 2, 1)];
        assert_eq!(rows(&jobs), [[2, 1, 0, 2], [3, 1, 2, 3], [2, 1, 3, 5], [1, 1, 5, 7]]);
    }

    /// Job 2 of chain 1 is released at 1, and ready since job 1 is complete at 3.
    #[test]
    fn a_job_is_ready_once_its_predecessor_is_complete() {
        let against = |release| rows(&[job((1, 1), 0, 2, 3), job((1, 2), 0, 1, 2), job((2, 1), release, 1, 2)]);
        assert_eq!(against(2), [[1, 1, 0, 3], [2, 1, 3, 5], [1, 2, 5, 7]]);
        assert_eq!(against(3), [[1, 1, 0, 3], [1, 2, 3, 5], [2, 1, 5, 7]]);
    }

    /// Job 2 of chain 1 is ready since its release at 5, not since job 1 is complete at 3.
    #[test]
    fn a_job_is_ready_once_it_is_released() {
        let against = |release| rows(&[job((1, 1), 0, 2, 3), job((1, 2), 5, 1, 2), job((2, 1), release, 1, 2), job((3, 1), 3, 2, 3)]);
        assert_eq!(against(4), [[1, 1, 0, 3], [3, 1, 3, 6], [2, 1, 6, 8], [1, 2, 8, 10]]);
        assert_eq!(against(5), [[1, 1, 0, 3], [3, 1, 3, 6], [1, 2, 6, 8], [2, 1, 8, 10]]);
    }

    /// What a tick of P4 and a successor, each with the running time 3, answers; they are released at 5 and 8.
    fn after(time: u64, work: [u64; 2], completions: [u64; 2]) -> Result<Ticked, u8> {
        let jobs = [P4, Job { job: 2, ..P4 }];
        tick(&jobs, &[3, 3], &mut State { time, work: work.to_vec(), completions: completions.to_vec() })
    }

    const RAN_1: Result<Ticked, u8> = Ok(Ticked::Ran { chain: 1, job: 1 });
    const RAN_2: Result<Ticked, u8> = Ok(Ticked::Ran { chain: 1, job: 2 });

    #[test]
    fn work_that_cannot_be() {
        assert_eq!(after(9, [4, 0], [8, 0]), Err(11));
        assert_eq!(after(9, [2, 1], [8, 0]), Err(11));
        assert_eq!((after(5, [1, 0], [0, 0]), after(6, [1, 0], [0, 0])), (Err(11), RAN_1));
        assert_eq!((after(8, [3, 1], [8, 0]), after(9, [3, 1], [8, 0])), (Err(11), RAN_2));
        assert_eq!((after(2_000_000_001, [3, 3], [8, 11]), after(2_000_000_000, [3, 3], [8, 11])), (Err(11), Ok(Ticked::Finished)));
    }

    #[test]
    fn completions_that_cannot_be() {
        assert_eq!((after(9, [3, 0], [5, 0]), after(9, [3, 0], [6, 0])), (Err(11), RAN_2));
        assert_eq!((after(9, [3, 0], [10, 0]), after(9, [3, 0], [9, 0])), (Err(11), RAN_2));
        assert_eq!((after(9, [3, 0], [0, 0]), after(9, [3, 0], [u64::MAX, 0])), (Err(11), Err(11)));
        assert_eq!((after(20, [3, 3], [8, 8]), after(20, [3, 3], [8, 9])), (Err(11), Ok(Ticked::Finished)));
        assert_eq!((after(20, [3, 3], [8, 21]), after(20, [3, 3], [8, 20])), (Err(11), Ok(Ticked::Finished)));
    }

    /// That of a job not complete is not read, and the tick that completes the job is the first that writes it.
    #[test]
    fn completions_that_mean_nothing() {
        assert_eq!((after(9, [2, 0], [0, 0]), after(9, [2, 0], [u64::MAX, 5])), (RAN_1, RAN_1));
        let mut state = State { time: 6, work: vec![1], completions: vec![99, 99] };
        assert_eq!((tick(&[P4], &[3], &mut state), &state.completions[..]), (RAN_1, &[99, 99][..]));
        assert_eq!((tick(&[P4], &[3], &mut state), &state.completions[..]), (RAN_1, &[8, 99][..]));
    }
}
