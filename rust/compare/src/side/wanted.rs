//! What each function has to answer and to leave in lent memory, by the plain reference.

use super::{completion_place, work_place, Answer, Pair, Side, STATE};
use reference::machine::{self, State, Ticked};
use reference::{blocks, bounds, recording, set, table, text, waveform, Job};

/// The jobs that numbers are; those missing of the last are 0.
pub fn jobs_of(numbers: &[u64]) -> Vec<Job> {
    numbers.chunks(7).map(Job::of).collect()
}

pub fn numbers_of(jobs: &[Job]) -> Vec<u64> {
    jobs.iter().flat_map(Job::numbers).collect()
}

fn checked(numbers: &[u64]) -> Result<Vec<Job>, u8> {
    let jobs = jobs_of(numbers);
    set::check(&jobs)?;
    Ok(jobs)
}

/// The jobs of a set that has passed together with its running times.
fn timed(numbers: &[u64], times: &[u64]) -> Result<Vec<Job>, u8> {
    let jobs = jobs_of(numbers);
    machine::check(&jobs, times)?;
    Ok(jobs)
}

/// Values written from the start of a buffer, where they fit: how many.
fn put<T: Copy>(values: &[T], out: &mut [T]) -> Answer {
    out.get_mut(..values.len()).ok_or(9)?.copy_from_slice(values);
    Ok(values.len() as i64)
}

fn set_read(text: &[u8], out: &mut [u64]) -> Answer {
    let jobs = table::read(text)?;
    put(&numbers_of(&jobs), out)?;
    Ok(jobs.len() as i64)
}

fn set_blocks(numbers: &[u64], algorithm: u64, out: &mut [u64]) -> Answer {
    let delays = blocks::by(&checked(numbers)?, algorithm)?;
    let numbers = delays.iter().flat_map(|delay| [vec![delay.from], delay.named().concat()].concat());
    put(&numbers.collect::<Vec<u64>>(), out)
}

fn set_admit(jobs: &mut [u64], count: u64, chain: &[u64], algorithm: u64) -> Answer {
    // Of 66 records the first 65 decide.
    let held: Vec<Job> = (0..count.min(66) as usize).map(|i| Job::of(jobs.get(7 * i..).unwrap_or(&[]))).collect();
    let Some(joined) = set::admit(&held, &jobs_of(chain), algorithm)? else { return Ok(0) };
    if jobs.len() < 7 * joined.len() {
        return Err(9);
    }
    put(&numbers_of(&joined[held.len()..]), &mut jobs[7 * held.len()..])?;
    Ok(joined.len() as i64)
}

fn set_tick(numbers: &[u64], times: &[u64], lent: &mut [u64]) -> Answer {
    let jobs = timed(numbers, times)?;
    if lent.len() < STATE {
        return Err(9);
    }
    let (work, completions) = (work_place(0), completion_place(0));
    let mut state = State { time: lent[0], work: lent[work..completions].to_vec(), completions: lent[completions..STATE].to_vec() };
    let ticked = machine::tick(&jobs, times, &mut state)?;
    lent[0] = state.time;
    put(&state.work, &mut lent[work..])?;
    put(&state.completions, &mut lent[completions..])?;
    Ok(match ticked {
        Ticked::Idle => 0,
        Ticked::Finished => 1,
        Ticked::Ran { chain, job } => (chain * 65_536 + job) as i64,
    })
}

fn set_run(numbers: &[u64], times: &[u64], out: &mut [u64]) -> Answer {
    let completions = machine::completions(&timed(numbers, times)?, times);
    put(&completions, out)?;
    Ok(*completions.iter().max().unwrap() as i64)
}

fn set_trace(numbers: &[u64], times: &[u64], out: &mut [u64]) -> Answer {
    let jobs = timed(numbers, times)?;
    if out.len() < 8 * jobs.len() {
        return Err(9);
    }
    let rows: Vec<u64> = machine::trace(&jobs, times).iter().flat_map(|s| [s.chain, s.job, s.from, s.to]).collect();
    put(&rows, out).map(|numbers| numbers / 4)
}

fn set_compare(numbers: &[u64], [first, second]: Pair, out: &mut [u64]) -> Answer {
    let compared = recording::compare(&jobs_of(numbers), first, second)?;
    let (differ, tick) = (compared.difference.is_some(), compared.difference.unwrap_or(0));
    put(&[compared.first_legal.into(), compared.second_legal.into(), differ.into(), tick], out)
}

pub const WANTED: Side = Side {
    bounds: |text, out| put(text::bounds_text(&table::read(text)?).as_bytes(), out),
    trace: |text, out| put(text::trace_text(&table::read(text)?).as_bytes(), out),
    verdict: |text, algorithm| Ok(bounds::verdict(&table::read(text)?, algorithm.into())?.into()),
    rounds: |text| Ok(bounds::bounds(&table::read(text)?).rounds as i64),
    set_read,
    set_write: |jobs, out| put(text::table_text(&checked(jobs)?).as_bytes(), out),
    set_bounds: |jobs, algorithm, out| put(&bounds::by(&checked(jobs)?, algorithm)?, out),
    set_blocks,
    set_verdict: |jobs, algorithm| Ok(bounds::verdict(&checked(jobs)?, algorithm)?.into()),
    set_rounds: |jobs| Ok(bounds::bounds(&checked(jobs)?).rounds as i64),
    set_admit,
    set_tick,
    set_run,
    set_trace,
    set_steps: |jobs, times| Ok(machine::steps(&timed(jobs, times)?, times) as i64),
    set_waveform: |jobs, times, out| put(waveform::waveform_text(&timed(jobs, times)?, times).as_bytes(), out),
    set_compare,
};
