//! Runs with free picks among equals and the recordings of them, as they are and with something wrong, which now and then are right all the same.

use crate::draw::Draw;
use reference::machine::{releases, Span};
use reference::{recording, table, text, Job};

/// The place of the job that runs in each tick; none where the tick is idle.
pub type Entries = Vec<Option<usize>>;

/// What may stand in the place of a recording's header; the first is right.
const HEADERS: [&str; 9] = [
    recording::HEADER,
    table::HEADER,
    "",
    "chain,job,from",
    "chain,job,from,to,",
    "chain,job,from,to\n",
    " chain,job,from,to",
    "Chain,job,from,to",
    "chain,job,to,from",
];

/// The rows that entries make: one for each longest run of one job.
pub fn rows_of(jobs: &[Job], entries: &[Option<usize>]) -> Vec<Span> {
    let mut rows = Vec::new();
    let mut from = 0;
    for same in entries.chunk_by(|a, b| a == b) {
        let to = from + same.len() as u64;
        if let Some(i) = same[0] {
            rows.push(Span { chain: jobs[i].chain, job: jobs[i].job, from, to });
        }
        from = to;
    }
    rows
}

/// The places of the jobs that are ready at a time, with so much work done.
fn ready(jobs: &[Job], times: &[u64], work: &[u64], time: u64) -> Vec<usize> {
    let releases = releases(jobs);
    let is_free = |i: usize| jobs[i].job == 1 || work[i - 1] == times[i - 1];
    (0..jobs.len()).filter(|i| releases[*i] <= time && work[*i] < times[*i] && is_free(*i)).collect()
}

impl Draw {
    /// One of some values; none where there is none.
    fn one_of<T: Copy>(&mut self, values: &[T]) -> Option<T> {
        let last = values.len().checked_sub(1)?;
        Some(values[self.range(0, last as u64) as usize])
    }

    /// So many jobs or fewer, in a few chains, with releases and times up to these; many are equals.
    pub fn few_jobs(&mut self, count: u64, release: u64, time: u64) -> Vec<Job> {
        let mut jobs: Vec<Job> = Vec::new();
        for _ in 0..self.range(1, count) {
            let (chain, job) = match jobs.last() {
                Some(last) if self.one_in(2) => (last.chain, last.job + 1),
                last => (last.map_or(1, |last| last.chain + 1), 1),
            };
            let (release, priority, most) = (self.range(0, release), self.range(0, 2), self.range(1, time));
            jobs.push(Job { chain, job, release, priority, least: self.range(1, most), most, deadline: 0 });
        }
        jobs
    }

    /// A run that picks freely among equals at each tick, every other time the one that ran before.
    pub fn free_run(&mut self, jobs: &[Job], times: &[u64]) -> Entries {
        let mut work = vec![0; jobs.len()];
        let mut entries: Entries = Vec::new();
        while work != times {
            let ready = ready(jobs, times, &work, entries.len() as u64);
            let highest = ready.iter().map(|i| jobs[*i].priority).max();
            let urgent: Vec<usize> = ready.into_iter().filter(|i| Some(jobs[*i].priority) == highest).collect();
            let last = entries.last().copied().flatten().filter(|i| urgent.contains(i) && self.one_in(2));
            let picked = last.or_else(|| self.one_of(&urgent));
            entries.push(picked);
            picked.into_iter().for_each(|i| work[i] += 1);
        }
        entries
    }

    /// A run of which some ticks are exchanged, show something else, are left out or put in, or that is cut off.
    pub fn damaged_run(&mut self, jobs: &[Job], entries: &[Option<usize>]) -> Entries {
        let mut out = entries.to_vec();
        for _ in 0..self.range(1, 2) {
            let Some(last) = out.len().checked_sub(1) else { break };
            let (at, other) = (self.range(0, last as u64) as usize, self.range(0, last as u64) as usize);
            let entry = Some(self.range(0, jobs.len() as u64) as usize).filter(|place| *place < jobs.len());
            match self.range(0, 9) {
                0..=2 => out.swap(at, last.min(at + 1)),
                3 => out.swap(at, other),
                4 => out[at] = entry,
                5 => out.insert(at, entry),
                6 => out.insert(at, out[at]),
                7 => out.truncate(at),
                _ => {
                    out.remove(at);
                }
            }
        }
        out
    }

    /// The rows with something wrong in one of them, between two, or in their order.
    pub fn damaged_rows(&mut self, rows: &[Span]) -> Vec<Span> {
        let mut out = rows.to_vec();
        let (at, other) = (self.range(0, rows.len() as u64 - 1) as usize, self.range(0, rows.len() as u64 - 1) as usize);
        let row = rows[at];
        match self.range(0, 8) {
            0 => out[at].to = self.by_one(row.to),
            1 => out[at].from = self.by_one(row.from),
            2 => {
                out.remove(at);
            }
            3 => out.swap(at, other),
            4 => {
                (out[at].chain, out[at].job) = (rows[other].chain, rows[other].job);
                (out[other].chain, out[other].job) = (row.chain, row.job);
            }
            5 => out[at].chain = self.by_one(row.chain),
            6 => out[at].job = self.by_one(row.job),
            7 => self.split(&mut out, at),
            _ => self.move_border(&mut out, at),
        }
        out
    }

    fn by_one(&mut self, value: u64) -> u64 {
        if self.one_in(2) {
            value + 1
        } else {
            value.saturating_sub(1)
        }
    }

    /// A row in two, which mostly touch.
    fn split(&mut self, rows: &mut Vec<Span>, at: usize) {
        let row = rows[at];
        let to = self.range(row.from, row.to);
        let from = if self.one_in(4) { to + 1 } else { to };
        rows.splice(at..=at, [Span { to, ..row }, Span { from, ..row }]);
    }

    /// The end of a row and the begin of the next, where there is one, moved together.
    fn move_border(&mut self, rows: &mut [Span], at: usize) {
        let border = self.by_one(rows[at].to);
        rows[at].to = border;
        if let Some(next) = rows.get_mut(at + 1) {
            next.from = border;
        }
    }

    /// The text of a recording; the last line lacks its end now and then.
    pub fn recording(&mut self, rows: &[Span]) -> Vec<u8> {
        let mut out = text::rows_text(rows).into_bytes();
        if self.one_in(4) {
            out.truncate(out.len() - 2);
        }
        out
    }

    /// The text with another header, or with a few bytes changed, left out, put in or cut off.
    pub fn damaged_recording(&mut self, text: &[u8]) -> Vec<u8> {
        if self.one_in(8) {
            let header = self.one_of(&HEADERS).unwrap_or("");
            [header.as_bytes(), &text[recording::HEADER.len()..]].concat()
        } else {
            self.damaged_text(recording::HEADER, text)
        }
    }
}
