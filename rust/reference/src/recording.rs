//! Recordings of runs: how they are read, which are legal, and where two begin to differ. Everything but reading goes from tick to tick, so that it
//! takes long where a recording ends late.

use crate::machine::{releases, Span};
use crate::{set, table, Job};

pub const HEADER: &str = "chain,job,from,to";

/// The most rows of a recording.
pub const MAX_ROWS: usize = 256;

/// How two recordings compare: whether each is legal, and the first tick at which they differ.
#[derive(Clone, Copy, Debug, PartialEq, Eq)]
pub struct Comparison {
    pub first_legal: bool,
    pub second_legal: bool,
    pub difference: Option<u64>,
}

/// The refusals of the set, of the first recording and of the second come before the comparison.
pub fn compare(jobs: &[Job], first: &[u8], second: &[u8]) -> Result<Comparison, u8> {
    set::check(jobs)?;
    let (first, second) = (read(jobs, first)?, read(jobs, second)?);
    Ok(Comparison { first_legal: is_legal(jobs, &first), second_legal: is_legal(jobs, &second), difference: difference(&first, &second) })
}

/// The rows of a recording, or the number of its refusal: line by line 16 behind the most rows, else 15.
pub fn read(jobs: &[Job], text: &[u8]) -> Result<Vec<Span>, u8> {
    let mut lines = table::lines(text).into_iter();
    if lines.next() != Some(HEADER.as_bytes()) {
        return Err(15);
    }
    let mut rows: Vec<Span> = Vec::new();
    for line in lines {
        if rows.len() == MAX_ROWS {
            return Err(16);
        }
        let [chain, job, from, to] = table::fields(line).ok_or(15)?;
        let row = Span { chain, job, from, to };
        if !is_next(jobs, rows.last(), &row) {
            return Err(15);
        }
        rows.push(row);
    }
    Ok(rows)
}

/// Whether a row may follow the last one: it is of a job of the table, takes time, and neither begins before the last one ends nor continues it.
fn is_next(jobs: &[Job], last: Option<&Span>, row: &Span) -> bool {
    let continues = |last: &Span| (last.chain, last.job, last.to) == (row.chain, row.job, row.from);
    let follows = last.is_none_or(|last| last.to <= row.from && !continues(last));
    jobs.iter().any(|job| is_of(row, job)) && row.from < row.to && follows
}

fn is_of(row: &Span, job: &Job) -> bool {
    (row.chain, row.job) == (job.chain, job.job)
}

/// The row that covers a tick; none where the tick is idle.
fn row_at(rows: &[Span], tick: u64) -> Option<&Span> {
    rows.iter().find(|row| (row.from..row.to).contains(&tick))
}

/// When the last row ends, from where on all is idle.
pub fn end(rows: &[Span]) -> u64 {
    rows.last().map_or(0, |row| row.to)
}

/// The first tick at which two recordings show different work, idleness counting as work of its own.
pub fn difference(first: &[Span], second: &[Span]) -> Option<u64> {
    let entry = |rows, tick| row_at(rows, tick).map(|row| (row.chain, row.job));
    (0..end(first).max(end(second))).find(|tick| entry(first, *tick) != entry(second, *tick))
}

/// Whether the entries of all ticks up to the end of the last row are a run in which every job is complete at that end, for some running times in
/// their ranges: these can only be the work that the rows show of each job.
pub fn is_legal(jobs: &[Job], rows: &[Span]) -> bool {
    let total = |job: &Job| rows.iter().filter(|row| is_of(row, job)).map(|row| row.to - row.from).sum();
    let mut run = Run { jobs, releases: releases(jobs), times: jobs.iter().map(total).collect(), work: vec![0; jobs.len()] };
    let fits = jobs.iter().zip(&run.times).all(|(job, time)| (job.least..=job.most).contains(time));
    fits && (0..end(rows)).all(|tick| run.goes_on(tick, row_at(rows, tick)))
}

/// A run up to some tick: a release and a running time for each job, and its work so far.
struct Run<'a> {
    jobs: &'a [Job],
    releases: Vec<u64>,
    times: Vec<u64>,
    work: Vec<u64>,
}

impl Run<'_> {
    /// Adds the entry of the next tick, and answers whether the run may have it: a ready job than which none that is ready is more urgent, or idle
    /// where none is ready.
    fn goes_on(&mut self, tick: u64, row: Option<&Span>) -> bool {
        let mut ready = (0..self.jobs.len()).filter(|i| self.is_ready(*i, tick));
        let Some(row) = row else { return ready.next().is_none() };
        let place = self.jobs.iter().position(|job| is_of(row, job)).unwrap();
        let allowed = self.is_ready(place, tick) && ready.all(|i| self.jobs[i].priority <= self.jobs[place].priority);
        self.work[place] += 1;
        allowed
    }

    fn is_complete(&self, i: usize) -> bool {
        self.work[i] == self.times[i]
    }

    fn is_ready(&self, i: usize, tick: u64) -> bool {
        let is_free = self.jobs[i].job == 1 || self.is_complete(i - 1);
        self.releases[i] <= tick && !self.is_complete(i) && is_free
    }
}

#[cfg(test)]
mod tests {
    use super::*;
    use crate::text;

    fn table(records: &str) -> Vec<Job> {
        table::read((table::HEADER.to_owned() + "\r\n" + records).as_bytes()).unwrap()
    }

    fn p1() -> Vec<Job> {
        table("1,1,0,1,20,40,60\r\n1,2,20,3,5,10,60\r\n1,3,75,1,40,50,170\r\n1,4,130,3,85,85,260\r\n2,1,30,2,10,10,50\r\n2,2,60,2,50,50,120\r\n")
    }

    fn p5() -> Vec<Job> {
        table("1,1,0,1,4,4,8\r\n2,1,0,1,4,4,8\r\n")
    }

    type Rows<'a> = &'a [(u64, u64, u64, u64)];

    fn recording(rows: Rows) -> Vec<u8> {
        let spans: Vec<Span> = rows.iter().map(|&(chain, job, from, to)| Span { chain, job, from, to }).collect();
        text::rows_text(&spans).into_bytes()
    }

    fn legal(jobs: &[Job], rows: Rows) -> bool {
        is_legal(jobs, &read(jobs, &recording(rows)).unwrap())
    }

    fn differ(jobs: &[Job], first: Rows, second: Rows) -> Option<u64> {
        let [one, other] = [(first, second), (second, first)].map(|(a, b)| compare(jobs, &recording(a), &recording(b)).unwrap().difference);
        assert_eq!(one, other);
        one
    }

    const P2: Rows<'static> = &[(1, 1, 0, 30), (2, 1, 30, 40), (1, 1, 40, 50), (1, 2, 50, 60), (2, 2, 60, 110), (1, 3, 110, 160), (1, 4, 160, 245)];
    const P3: Rows<'static> = &[(1, 1, 0, 30), (1, 2, 30, 40), (2, 1, 40, 50), (2, 2, 60, 110), (1, 3, 110, 160), (1, 4, 160, 245)];

    #[test]
    fn runs_of_the_scope() {
        assert_eq!(compare(&p1(), &recording(P2), &recording(P3)), Ok(Comparison { first_legal: true, second_legal: true, difference: Some(30) }));
        assert_eq!((differ(&p1(), P2, P2), differ(&p1(), P2, &P2[..6]), differ(&p1(), &[], P2)), (None, Some(160), Some(0)));
    }

    #[test]
    fn equals_in_any_order() {
        let orders: [Rows; 4] = [
            &[(1, 1, 0, 4), (2, 1, 4, 8)],
            &[(2, 1, 0, 4), (1, 1, 4, 8)],
            &[(1, 1, 0, 1), (2, 1, 1, 2), (1, 1, 2, 3), (2, 1, 3, 4), (1, 1, 4, 5), (2, 1, 5, 6), (1, 1, 6, 7), (2, 1, 7, 8)],
            &[(2, 1, 0, 3), (1, 1, 3, 7), (2, 1, 7, 8)],
        ];
        assert_eq!(orders.map(|rows| legal(&p5(), rows)), [true; 4]);
        assert_eq!((differ(&p5(), orders[0], orders[2]), differ(&p5(), orders[1], orders[3])), (Some(1), Some(3)));
    }

    /// P4 runs from its release on, for 3 to 7 ticks.
    #[test]
    fn a_job_runs_for_its_range() {
        let p4 = table("1,1,5,1,3,7,12\r\n");
        let until: Vec<bool> = (6..14).map(|to| legal(&p4, &[(1, 1, 5, to)])).collect();
        assert_eq!(until, [false, false, true, true, true, true, true, false]);
        assert_eq!((legal(&p4, &[(1, 1, 4, 8)]), legal(&p4, &[(1, 1, 6, 9)]), legal(&p4, &[])), (false, false, false));
        assert_eq!((legal(&p5(), &[(1, 1, 0, 4)]), legal(&p5(), &[(1, 1, 0, 4), (2, 1, 4, 7)])), (false, false));
    }

    #[test]
    fn no_tick_is_idle_while_a_job_is_ready() {
        assert!(!legal(&p5(), &[(1, 1, 0, 4), (2, 1, 5, 9)]));
        assert!(!legal(&p5(), &[(1, 1, 1, 5), (2, 1, 5, 9)]));
        assert!(!legal(&p5(), &[(1, 1, 0, 2), (1, 1, 3, 5), (2, 1, 5, 9)]));
    }

    /// Chain 2 is released at 3, where chain 1 is complete at 2.
    #[test]
    fn a_job_released_in_a_gap() {
        let jobs = table("1,1,0,1,2,2,9\r\n2,1,3,1,2,2,9\r\n");
        assert_eq!([2, 3, 4].map(|from| legal(&jobs, &[(1, 1, 0, 2), (2, 1, from, from + 2)])), [false, true, false]);
    }

    /// Job 2 of chain 1 is more urgent, and takes over once job 1 is complete.
    #[test]
    fn a_job_waits_for_its_predecessor_alone() {
        let jobs = table("1,1,0,1,1,2,9\r\n1,2,0,2,2,2,9\r\n2,1,0,1,2,2,9\r\n");
        assert!(legal(&jobs, &[(1, 1, 0, 2), (1, 2, 2, 4), (2, 1, 4, 6)]));
        assert!(legal(&jobs, &[(2, 1, 0, 1), (1, 1, 1, 3), (1, 2, 3, 5), (2, 1, 5, 6)]));
        assert!(!legal(&jobs, &[(1, 1, 0, 1), (1, 2, 1, 3), (1, 1, 3, 4), (2, 1, 4, 6)]));
        assert!(!legal(&jobs, &[(1, 1, 0, 2), (2, 1, 2, 4), (1, 2, 4, 6)]));
    }

    fn refused(jobs: &[Job], lines: &str) -> Option<u8> {
        read(jobs, (HEADER.to_owned() + lines).as_bytes()).err()
    }

    #[test]
    fn texts_that_are_no_recording() {
        assert_eq!((read(&p5(), b"").err(), read(&p5(), b"chain,job,from\r\n").err(), refused(&p5(), "\n")), (Some(15), Some(15), Some(15)));
        assert_eq!([refused(&p5(), ""), refused(&p5(), "\r\n"), refused(&p5(), "\r\n1,1,0,4"), refused(&p5(), "\r\n1,1,0,4\r\n")], [None; 4]);
        let lines =
            ["\r\n\r\n", "\r\n1,1,0\r\n", "\r\n1,1,0,4,5\r\n", "\r\n1,1,0,04\r\n", "\r\n1,1,0,4\r", "\r\n1,1,,4\r\n", "\r\n1,1,0,12345678901\r\n"];
        assert_eq!(lines.map(|lines| refused(&p5(), lines)), [Some(15); 7]);
        assert_eq!(refused(&p5(), "\r\n1,1,9999999998,9999999999"), None);
    }

    #[test]
    fn rows_that_may_not_follow() {
        let refused = |rows: Rows| read(&p5(), &recording(rows)).err();
        let alone: [Rows; 5] = [&[(1, 2, 0, 4)], &[(3, 1, 0, 4)], &[(0, 0, 0, 4)], &[(1, 1, 4, 4)], &[(1, 1, 5, 4)]];
        assert_eq!(alone.map(refused), [Some(15); 5]);
        let second = |chain, from| refused(&[(1, 1, 0, 4), (chain, 1, from, 9)]);
        assert_eq!((second(2, 3), second(2, 4), second(1, 3), second(1, 4), second(1, 5)), (Some(15), None, Some(15), Some(15), None));
    }

    /// The line behind 256 rows is not read; a bad one before it decides.
    #[test]
    fn rows_beyond_the_most() {
        let rows = |count| -> String { (0..count).map(|tick| format!("\r\n{},1,{tick},{}", 1 + tick % 2, tick + 1)).collect() };
        assert_eq!([0, 1, 255, 256, 257, 300].map(|count| refused(&p5(), &rows(count))), [None, None, None, None, Some(16), Some(16)]);
        let behind = |line| refused(&p5(), &(rows(256) + line));
        assert_eq!((behind("\r\n"), behind("\r\n\r\n"), behind("\r\na"), behind("a"), behind("\r")), (None, Some(16), Some(16), Some(15), Some(15)));
        assert_eq!(refused(&p5(), &(rows(255) + "\r\n\r\n")), Some(15));
    }

    #[test]
    fn the_set_and_the_first_recording_are_refused_first() {
        let (good, many) = (recording(P2), vec![b'a'; 20_000]);
        assert_eq!((compare(&[], b"", b""), compare(&p5()[1..], b"", b"")), (Err(7), Err(5)));
        assert_eq!((compare(&p1(), &many, &good), compare(&p1(), &good, &many)), (Err(15), Err(15)));
    }
}
