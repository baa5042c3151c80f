//! Sets and running times with something wrong, which now and then are right all the same.

use crate::draw::Draw;
use reference::Job;

/// The greatest value of each column, where for the job it is the greatest that there can be.
const LIMITS: [u64; 7] = [16, 64, 1_000_000_000, 255, 1_000_000, 1_000_000, 4_000_000_000];

impl Draw {
    /// A value in the place of another: at or beyond a limit, one more or less, or huge.
    pub fn wrong(&mut self, value: u64, limit: u64) -> u64 {
        match self.range(0, 7) {
            0 => limit,
            1 => limit + 1,
            2 => 0,
            3 => value.wrapping_add(1),
            4 => value.wrapping_sub(1),
            // what is right in its low bits alone
            5 => value | 1 << [8, 16, 32, 63][self.range(0, 3) as usize],
            _ => u64::MAX - self.range(0, 1),
        }
    }

    /// The numbers of a set with something wrong in a number, in the order of the records, or in how many there are.
    pub fn damaged_set(&mut self, numbers: &[u64]) -> Vec<u64> {
        let mut out = numbers.to_vec();
        for _ in 0..self.range(1, 2) {
            if out.len() < 7 {
                break;
            }
            match self.range(0, 24) {
                0..=13 => {
                    let at = self.range(0, out.len() as u64 - 1) as usize;
                    out[at] = self.wrong(out[at], LIMITS[at % 7]);
                }
                14..=18 => self.disorder(&mut out),
                19..=23 => self.resize(&mut out),
                // seldom, since so many jobs take the reference long
                _ => self.extend(&mut out),
            }
        }
        out
    }

    /// A record twice, left out, or in another's place.
    fn disorder(&mut self, numbers: &mut Vec<u64>) {
        let last = numbers.len() as u64 / 7 - 1;
        let (from, to) = (7 * self.range(0, last) as usize, 7 * self.range(0, last) as usize);
        let record: Vec<u64> = numbers[from..from + 7].to_vec();
        match self.range(0, 2) {
            0 => numbers.splice(from..from, record),
            1 => numbers.splice(from..from + 7, vec![]),
            _ => numbers.splice(to..to + 7, record),
        };
    }

    /// A few numbers too few, a job of which some are missing, or none at all.
    fn resize(&mut self, numbers: &mut Vec<u64>) {
        let missing = self.range(1, 6) as usize;
        match self.range(0, 4) {
            0 => numbers.clear(),
            1 | 2 => numbers.truncate(numbers.len() - missing),
            _ => {
                let next = next_job(numbers);
                numbers.extend(&next[..missing]);
            }
        }
    }

    /// Further jobs of the last chain, until there are about as many as there may be.
    fn extend(&mut self, numbers: &mut Vec<u64>) {
        let length = 7 * self.range(63, 66) as usize;
        while numbers.len() < length {
            numbers.extend(next_job(numbers));
        }
    }

    /// Running times of which one is out of its range, or that are too few or too many.
    pub fn damaged_times(&mut self, jobs: &[Job], times: &[u64]) -> Vec<u64> {
        let mut out = times.to_vec();
        let at = self.range(0, jobs.len() as u64 - 1) as usize;
        match self.range(0, 4) {
            0 => out[at] = jobs[at].least - 1,
            1 => out[at] = jobs[at].most + 1,
            2 => out[at] = self.wrong(out[at], jobs[at].most),
            3 => out.truncate(at),
            _ => out.push(1),
        }
        out
    }
}

/// The numbers of a job that comes next after the last, which is as that.
fn next_job(numbers: &[u64]) -> [u64; 7] {
    let last = Job::of(&numbers[numbers.len().saturating_sub(7)..]);
    Job { job: last.job.wrapping_add(1), ..last }.numbers()
}
