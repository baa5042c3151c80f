//! The safe wrapper's sets and functions on texts beside the reference, and its refusals.

use crate::draw::{Draw, Kind};
use crate::engine::TICKS;
use crate::tally::Tally;
use cudlomer::{Algorithm, Delays, Job, Refused, Set, State, Ticked, Times, Verdict};
use reference::{blocks, bounds, machine, set, text, waveform};

pub fn compare(tally: &mut Tally, draw: &mut Draw, kind: Kind, jobs: &[reference::Job]) {
    let own: Vec<Job> = jobs.iter().map(job).collect();
    let set = Set::of(&own).unwrap();
    tally.same("Set::read", &jobs, Set::read(text::table_text(jobs).as_bytes()), Ok(set));
    compare_texts(tally, jobs);
    compare_figures(tally, &set, jobs);
    compare_admission(tally, &set, jobs, &draw.chain(kind));
    let most: Vec<u64> = jobs.iter().map(|j| j.most).collect();
    compare_run(tally, &set, jobs, &most);
    tally.same("Set::of", &jobs, Set::of(&own[1..]), Err(Refused(if own.len() == 1 { 7 } else { 5 })));
    tally.same("Set::run", &jobs, set.run(&set.times(|j| j.most + 1)), Err(Refused(8)));
    tally.same("Set::steps", &jobs, set.steps(&set.times(|j| j.least - 1)), Err(Refused(8)));
}

pub fn job(j: &reference::Job) -> Job {
    let [chain, job, release, priority, least, most, deadline] = j.numbers();
    Job { chain, job, release, priority, least, most, deadline }
}

fn listed(times: Times) -> Vec<u64> {
    times.iter().collect()
}

/// From which job the sum of a bound begins, and the first and last job of each chain's block, 0 and 0 where it has none.
type Named = (u64, Vec<[u64; 2]>);

fn named(jobs: &[reference::Job], delays: &Delays) -> Vec<Named> {
    let chains = jobs.last().map_or(0, |j| j.chain);
    let block = |place, chain| delays.block(place, chain).map_or([0, 0], |block| [block.first, block.last]);
    (0..jobs.len()).map(|place| (delays.from(place).unwrap_or(0), (1..=chains).map(|chain| block(place, chain)).collect())).collect()
}

/// Whether a verdict is yes, or the number of its refusal.
fn said(verdict: Result<Verdict, Refused>) -> Result<bool, u8> {
    verdict.map(|v| v == Verdict::Yes).map_err(|r| r.0)
}

/// The functions on texts, of the table and of no text.
fn compare_texts(tally: &mut Tally, jobs: &[reference::Job]) {
    let table = text::table_text(jobs).into_bytes();
    let mut out = [0; Set::MAX_TEXT];
    let written = cudlomer::bounds(&table, &mut out).map(|bytes| out[..bytes].to_vec());
    tally.same("bounds", &jobs, written, Ok(text::bounds_text(jobs).into_bytes()));
    let written = cudlomer::trace(&table, &mut out).map(|bytes| out[..bytes].to_vec());
    tally.same("trace", &jobs, written, Ok(text::trace_text(jobs).into_bytes()));
    for algorithm in 0..=4 {
        tally.same("verdict", &jobs, said(cudlomer::verdict(&table, algorithm)), bounds::verdict(jobs, algorithm.into()));
    }
    tally.same("rounds", &jobs, cudlomer::rounds(&table), Ok(bounds::bounds(jobs).rounds));
    let nothing = (cudlomer::bounds(&[], &mut out), cudlomer::trace(&[], &mut out), cudlomer::verdict(&[], 3), cudlomer::rounds(&[]));
    let refused = Refused(2);
    tally.same("no text", &jobs, nothing, (Err(refused), Err(refused), Err(refused), Err(refused)));
}

fn compare_figures(tally: &mut Tally, set: &Set, jobs: &[reference::Job]) {
    let mut out = [0; Set::MAX_TEXT];
    let written = set.write(&mut out).unwrap();
    tally.same("Set::write", &jobs, &out[..written], text::table_text(jobs).as_bytes());
    for algorithm in [Algorithm::Ert, Algorithm::Cja, Algorithm::Itr] {
        let number = algorithm as u64;
        tally.same("Set::bounds", &jobs, set.bounds(algorithm).map(listed).map_err(|r| r.0), bounds::by(jobs, number));
        let delays: Vec<Named> = blocks::by(jobs, number).unwrap().iter().map(|delay| (delay.from, delay.named())).collect();
        tally.same("Set::blocks", &jobs, set.blocks(algorithm).map(|delays| named(jobs, &delays)), Ok(delays));
        tally.same("Set::verdict", &jobs, said(set.verdict(algorithm)), bounds::verdict(jobs, number));
    }
    tally.same("Set::rounds", &jobs, set.rounds(), Ok(bounds::bounds(jobs).rounds));
}

fn compare_admission(tally: &mut Tally, held: &Set, jobs: &[reference::Job], chain: &[reference::Job]) {
    let own: Vec<Job> = chain.iter().map(job).collect();
    let mut joined = *held;
    let answer = said(joined.admit(&own, Algorithm::Itr));
    let wanted = set::admit(jobs, chain, 3);
    let left = wanted.as_ref().ok().and_then(Option::as_deref).unwrap_or(jobs);
    tally.same("Set::admit", &(jobs, chain), joined.jobs(), &left.iter().map(job).collect::<Vec<Job>>());
    tally.same("Set::admit", &(jobs, chain), answer, wanted.map(|set| set.is_some()));
}

/// The run as a whole, its trace, its steps, its waveform, and the ticks that lead to the same end, where they are few.
fn compare_run(tally: &mut Tally, set: &Set, jobs: &[reference::Job], most: &[u64]) {
    let times = set.times(|j| j.most);
    let run = set.run(&times).unwrap();
    tally.same("Set::run", &jobs, listed(run.completions), machine::completions(jobs, most));
    let rows: Vec<[u64; 4]> = set.trace(&times).unwrap().rows().iter().map(|r| [r.chain, r.job, r.from, r.to]).collect();
    let spans: Vec<[u64; 4]> = machine::trace(jobs, most).iter().map(|s| [s.chain, s.job, s.from, s.to]).collect();
    tally.same("Set::trace", &jobs, rows, spans);
    tally.same("Set::steps", &jobs, set.steps(&times), Ok(machine::steps(jobs, most) as u64));
    let mut out = [0; Set::MAX_WAVEFORM];
    let written = set.waveform(&times, &mut out).map(|bytes| out[..bytes].to_vec());
    tally.same("Set::waveform", &jobs, written, Ok(waveform::waveform_text(jobs, most).into_bytes()));
    if run.end > TICKS {
        return;
    }
    let mut state = State::START;
    let finished = (0..=run.end).any(|_| set.tick(&times, &mut state) == Ok(Ticked::Finished));
    tally.same("Set::tick", &jobs, (finished, state.time, &state.work[..jobs.len()]), (true, run.end, most));
    tally.same("Set::tick", &jobs, &state.completions[..jobs.len()], &machine::completions(jobs, most));
}
