//! Whole runs, which the part goes through from one release or completion to the next: beside the reference, of running times that are right or
//! damaged, beside the part's own ticks, and as recordings.

use crate::draw::Draw;
use crate::runs::{rows_of, Entries};
use crate::side::{completion_place, jobs_of, numbers_of, PART, STATE};
use crate::tally::Tally;
use crate::{recordings, texts, waveform};
use cudlomer::Trace;
use reference::machine::{self, Span};
use reference::{text, Job};

/// So many sets are drawn of a few jobs, where none is given a release after 0, and of long jobs.
const FEW_SETS: usize = 600;
const LONG_SETS: usize = 150;

/// So many ticks of a run are gone through one by one, which is more than a run of short jobs with releases near each other has.
pub const TICKS: u64 = 2_500;

/// Runs of those sets.
pub fn compare_drawn(tally: &mut Tally, draw: &mut Draw) {
    for _ in 0..FEW_SETS {
        let jobs = draw.few_jobs(6, 0, 5);
        compare(tally, draw, &jobs);
    }
    for _ in 0..LONG_SETS {
        let jobs = draw.long_jobs();
        compare(tally, draw, &jobs);
        texts::compare_trace(tally, text::table_text(&jobs).as_bytes());
    }
}

/// Runs of a set and of a damaged one, with running times that are right or damaged.
pub fn compare(tally: &mut Tally, draw: &mut Draw, jobs: &[Job]) {
    let (numbers, times) = (numbers_of(jobs), draw.times(jobs));
    compare_run(tally, &numbers, &times);
    compare_run(tally, &numbers, &draw.damaged_times(jobs, &times));
    compare_run(tally, &draw.damaged_set(&numbers), &times);
    compare_recording(tally, &numbers, &times);
    compare_ticks(tally, jobs, &times);
    count(tally, jobs, &times);
    tally.run(is_readiness_deciding(jobs, &times));
}

/// The run, its trace, its steps and its waveform.
fn compare_run(tally: &mut Tally, numbers: &[u64], times: &[u64]) {
    let (jobs, given) = (jobs_of(numbers), (numbers, times));
    tally.around("set_run", &given, (jobs.len(), u64::MAX), |side, out| (side.set_run)(numbers, times, out));
    tally.around("set_trace", &given, (8 * jobs.len(), u64::MAX), |side, out| (side.set_trace)(numbers, times, out));
    tally.answers("set_steps", &given, |side| (side.set_steps)(numbers, times));
    waveform::compare(tally, numbers, times);
}

/// The trace as a recording, which the part finds legal and the same as itself.
fn compare_recording(tally: &mut Tally, numbers: &[u64], times: &[u64]) {
    let (text, mut out) = (recordings::machine(numbers, times), [u64::MAX; recordings::NUMBERS]);
    let answer = (PART.set_compare)(numbers, [&text, &text], &mut out);
    tally.same("set_compare of a trace", &(numbers, times), (answer, out), (Ok(recordings::NUMBERS as i64), [1, 1, 0, 0]));
}

/// The run and the trace beside the ticks from the start on, where these are few, and the same of the reference.
fn compare_ticks(tally: &mut Tally, jobs: &[Job], times: &[u64]) {
    let (numbers, given) = (numbers_of(jobs), (jobs, times));
    let mut completions = vec![0; jobs.len()];
    let end = (PART.set_run)(&numbers, times, &mut completions);
    if end.is_ok_and(|end| end > TICKS as i64) {
        return;
    }
    let (entries, state) = ticked(jobs, times);
    let ticked_completions = state[completion_place(0)..][..jobs.len()].to_vec();
    tally.same("set_run beside set_tick", &given, (end, completions), (Ok(state[0] as i64), ticked_completions));
    tally.same("set_trace beside set_tick", &given, traced(&numbers, times), rows_of(jobs, &entries));
    tally.same("the reference by events", &given, machine::trace(jobs, times), machine::trace_by_ticks(jobs, times));
}

/// What the part's ticks from the start on answer, until one does not go on, and the state after them.
fn ticked(jobs: &[Job], times: &[u64]) -> (Entries, Vec<u64>) {
    let (numbers, mut state, mut entries) = (numbers_of(jobs), vec![0; STATE], Entries::new());
    let place = |ran: u64| jobs.iter().position(|job| (job.chain, job.job) == (ran / 65_536, ran % 65_536));
    for _ in 0..=TICKS {
        match (PART.set_tick)(&numbers, times, &mut state) {
            Ok(0) => entries.push(None),
            Err(_) | Ok(1) => break,
            Ok(ran) => entries.push(place(ran as u64)),
        }
    }
    (entries, state)
}

/// The rows of the trace that the part writes; none where it is refused.
pub fn traced(numbers: &[u64], times: &[u64]) -> Vec<Span> {
    let mut out = [0; 4 * Trace::MAX_ROWS];
    let count = (PART.set_trace)(numbers, times, &mut out).unwrap_or(0) as usize;
    out.chunks(4).take(count).map(|row| Span { chain: row[0], job: row[1], from: row[2], to: row[3] }).collect()
}

/// Whether the run is not the one in which the lowest chain goes first among equals, as it does where the chain is part of the priority.
fn is_readiness_deciding(jobs: &[Job], times: &[u64]) -> bool {
    let by_chain: Vec<Job> = jobs.iter().map(|j| Job { priority: 17 * j.priority + 16 - j.chain, ..*j }).collect();
    machine::trace(jobs, times) != machine::trace(&by_chain, times)
}

/// Which cases the run of an accepted set is, as the reference finds them.
fn count(tally: &mut Tally, jobs: &[Job], times: &[u64]) {
    let (releases, completions) = (machine::releases(jobs), machine::completions(jobs, times));
    let (events, rows) = (machine::events(jobs, times), machine::trace(jobs, times));
    let is_blocked = |i: usize| jobs[i].job > 1 && releases[i] < completions[i - 1];
    let is_of_blocked = |time: &u64| (0..jobs.len()).all(|i| releases[i] != *time || is_blocked(i)) && !completions.contains(time);
    let is_met = |i: usize| (0..jobs.len()).any(|k| jobs[k].chain != jobs[i].chain && completions[k] == releases[i]);
    let is_idle = |rows: &[Span]| rows[0].to < rows[1].from;
    tally.case("a release and a completion of two chains at one time", (0..jobs.len()).any(is_met));
    tally.case("releases at one time after 0", (0..jobs.len()).any(|i| releases[i] > 0 && releases[..i].contains(&releases[i])));
    tally.case("a release at 0", releases.contains(&0));
    tally.case("no release after 0", releases.iter().all(|time| *time == 0));
    tally.case("an event that is the release of blocked jobs alone", events.iter().any(is_of_blocked));
    tally.case("an event within a row", rows.iter().any(|row| events.range(row.from + 1..row.to).next().is_some()));
    tally.case("idle time at the start", rows[0].from > 0);
    tally.case("idle time between two rows", rows.windows(2).any(is_idle));
    tally.case("two steps for each job", machine::steps(jobs, times) == 2 * jobs.len());
    tally.case("a run of more than 500,000,000 ticks", rows.iter().any(|row| row.to > 500_000_000));
    tally.case("work of more than 10,000,000 ticks", times.iter().sum::<u64>() > 10_000_000);
}
