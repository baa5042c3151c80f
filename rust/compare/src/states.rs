//! States of the machine: at the start, at any time, and with something wrong, which now and then are right all the same.

use crate::draw::Draw;
use crate::side::{completion_place, work_place, STATE};
use reference::machine::releases;
use reference::Job;

const LAST_TIME: u64 = 2_000_000_000;

impl Draw {
    /// Time 0 and no work; garbage beyond the jobs, and now and then in the completions, since no job is complete.
    pub fn start(&mut self, jobs: &[Job]) -> Vec<u64> {
        let mut state = vec![u64::MAX; STATE];
        state[0] = 0;
        state[work_place(0)..][..jobs.len()].fill(0);
        if self.one_in(2) {
            state[completion_place(0)..][..jobs.len()].fill(0);
        }
        state
    }

    /// A state that can be, of a run or not: in each chain some jobs are complete and the next may have begun, the time is not long after the last of
    /// their releases, and completions lie anywhere from the releases to the time.
    pub fn state(&mut self, jobs: &[Job], times: &[u64]) -> Vec<u64> {
        let releases = releases(jobs);
        let mut state = self.start(jobs);
        for i in 0..jobs.len() {
            if jobs[i].job == 1 || state[work_place(i - 1)] == times[i - 1] {
                state[work_place(i)] = if self.one_in(3) { self.range(0, times[i] - 1) } else { times[i] };
            }
        }
        let begun = (0..jobs.len()).filter(|i| state[work_place(*i)] > 0).map(|i| releases[i]).max();
        state[0] = begun.map_or(0, |latest| latest + self.range(1, 30));
        for i in 0..jobs.len() {
            if state[work_place(i)] == times[i] {
                state[completion_place(i)] = self.extreme(releases[i] + 1, state[0]);
            }
        }
        state
    }

    /// A state with work, a completion or a time that cannot be, or of another length.
    pub fn damaged_state(&mut self, jobs: &[Job], times: &[u64], state: &[u64]) -> Vec<u64> {
        let mut out = state.to_vec();
        let at = self.range(0, jobs.len() as u64 - 1) as usize;
        let (work, completion) = (work_place(at), completion_place(at));
        match self.range(0, 9) {
            0 | 1 => out[work] = self.wrong(out[work], times[at]),
            2 => out[0] = self.wrong(out[0], LAST_TIME),
            3 => out[0] = self.edge(jobs, at, out[0]),
            4 | 5 => out[completion] = self.edge(jobs, at, out[0]),
            6 => {
                out[work] = times[at];
                out[completion] = self.edge(jobs, at, out[0]);
            }
            7 => {
                out[0] = LAST_TIME + self.range(0, 1);
                out[work_place(0)..][..jobs.len()].copy_from_slice(times);
                out[completion_place(0)..][..jobs.len()].fill(LAST_TIME);
            }
            8 => out.truncate(self.extreme(0, STATE as u64 - 1) as usize),
            _ => out.extend(state),
        }
        out
    }

    /// A time at which it changes what can be of a job: about its release, as it is given or takes effect, about the state's time, or beyond all.
    fn edge(&mut self, jobs: &[Job], at: usize, time: u64) -> u64 {
        let (given, release) = (jobs[at].release, releases(jobs)[at]);
        let edges = [0, given, given + 1, release, release + 1, time, time.saturating_add(1), u64::MAX];
        edges[self.range(0, edges.len() as u64 - 1) as usize]
    }
}
