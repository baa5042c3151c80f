//! Times the proved part and the plain reference in one run, on the same tables.

mod rounds;
mod scan;

use cudlomer::{Algorithm, Set, State, Ticked};
use reference::machine::Span;
use reference::{blocks, machine, recording, set, table, text, Job};
use std::cmp::Reverse;
use std::hint::black_box;
use std::time::Instant;

/// So many jobs in so many chains, released one after another, with priorities that mix.
fn load(jobs: u64, chains: u64) -> Vec<Job> {
    let per = jobs / chains;
    (0..jobs)
        .map(|i| {
            let (c, j) = (i / per, i % per);
            let most = 10 + (i * 7) % 23;
            Job { chain: c + 1, job: j + 1, release: j * 40 + c * 3, priority: (i * 5) % 11, least: 1 + most / 2, most, deadline: 100_000 }
        })
        .collect()
}

/// The same jobs, all released at one time and each as long as given.
fn run_load(jobs: u64, chains: u64, release: u64, most: u64) -> Vec<Job> {
    load(jobs, chains).into_iter().map(|j| Job { release, least: most, most, ..j }).collect()
}

fn table_text(jobs: &[Job]) -> Vec<u8> {
    text::table_text(jobs).into_bytes()
}

/// The least time of a call over many short batches, in nanoseconds; a call of more than a second is timed once.
fn time(mut call: impl FnMut()) -> f64 {
    let start = Instant::now();
    call();
    let once = start.elapsed().as_nanos().max(1) as u64;
    if once > 1_000_000_000 {
        return once as f64;
    }
    let calls = (1_000_000 / once).clamp(1, 10_000);
    let batches = (50_000_000 / (calls * once)).clamp(5, 50);
    let mut best = f64::MAX;
    for _ in 0..batches {
        let start = Instant::now();
        for _ in 0..calls {
            call();
        }
        best = best.min(start.elapsed().as_nanos() as f64 / calls as f64);
    }
    best
}

/// An algorithm that there is not is refused once the table is read.
fn reading(table: &[u8]) -> f64 {
    time(|| {
        black_box(cudlomer::verdict(black_box(table), 9).unwrap_err());
    })
}

/// A verdict works out the bounds of its algorithm alone, after reading.
fn verdict(table: &[u8], algorithm: u8) -> f64 {
    time(|| {
        black_box(cudlomer::verdict(black_box(table), algorithm).unwrap());
    })
}

/// What is timed of a load: reading and, with it, ERT, CJA and ITR; the bounds text; and by the plain reference reading and the text.
fn bounds_times(table: &[u8]) -> Vec<f64> {
    let mut buffer = vec![0u8; 16_384];
    let mut times = vec![reading(table)];
    times.extend([1, 2, 3].map(|algorithm| verdict(table, algorithm)));
    times.push(time(|| {
        black_box(cudlomer::bounds(black_box(table), &mut buffer).unwrap());
    }));
    times.push(time(|| {
        black_box(table::read(black_box(table)).unwrap());
    }));
    times.push(time(|| {
        black_box(text::bounds_text(&table::read(black_box(table)).unwrap()));
    }));
    times
}

fn print_bounds(jobs: u64, chains: u64, times: &[f64]) {
    let [read, with_ert, with_cja, with_itr, whole, plain_read, plain_whole] = times else { unreachable!() };
    let rounds = cudlomer::rounds(&table_text(&load(jobs, chains))).unwrap();
    let (ert, cja, itr) = (with_ert - read, with_cja - read, with_itr - read);
    print!("{jobs:2} jobs, {chains} chains, {rounds} rounds: {read:6.0} {:5.2} | ", read / plain_read);
    println!("{ert:6.0} {cja:7.0} {itr:8.0} | {whole:8.0} {:5.2}", whole / plain_whole);
}

/// What is timed of a table written by a call, with its numbers short and with them as long as can be: that, and the same of the plain reference.
fn writing_times((jobs, chains): (u64, u64)) -> Vec<f64> {
    let numbers: [fn(Job) -> Job; 2] = [
        |j| Job { release: 0, priority: 0, least: 1, most: 1, deadline: 9, ..j },
        |j| Job { release: 1_000_000_000, priority: 255, least: 1_000_000, most: 1_000_000, deadline: 4_000_000_000, ..j },
    ];
    let measure = |number: fn(Job) -> Job| {
        let jobs: Vec<Job> = load(jobs, chains).into_iter().map(number).collect();
        let held = Set::read(&table_text(&jobs)).unwrap();
        let mut buffer = [0u8; Set::MAX_TEXT];
        let called = time(|| {
            black_box(held.write(black_box(&mut buffer)).unwrap());
        });
        let plain = time(|| {
            set::check(black_box(&jobs)).unwrap();
            black_box(table_text(&jobs));
        });
        [called, plain]
    };
    numbers.map(measure).concat()
}

/// P1 of the scope.
fn p1() -> Vec<Job> {
    table::read(include_bytes!("../../../examples/p1.csv")).unwrap()
}

/// What is timed of a trace by a call, which checks the set and the times: that, and one of the plain reference.
fn trace_times(load: fn() -> Vec<Job>) -> Vec<f64> {
    let jobs = load();
    let set = Set::read(&table_text(&jobs)).unwrap();
    let times = set.times(|j| j.most);
    let called = time(|| {
        black_box(set.trace(black_box(&times)).unwrap());
    });
    let most: Vec<u64> = times.iter().collect();
    let plain = time(|| {
        machine::check(black_box(&jobs), &most).unwrap();
        black_box(machine::trace(&jobs, &most));
    });
    vec![called, plain]
}

/// A load and its name.
type Named = (&'static str, fn() -> Vec<Job>);

fn print_traces() {
    let loads: [Named; 4] = [
        ("P1", p1),
        (" 8 jobs, 2 chains", || load(8, 2)),
        ("64 jobs, 8 chains", || load(64, 8)),
        ("64 jobs, 16 chains, a tick each", || run_load(64, 16, 0, 1)),
    ];
    println!("  us: a trace by a call, which checks the set and the times: the part, the plain reference, ratio");
    for ((name, _), times) in loads.iter().zip(&least(trace_times, &loads.map(|(_, load)| load))) {
        println!("{name}: {:6.2} {:6.2} {:5.2}", times[0] / 1_000.0, times[1] / 1_000.0, times[0] / times[1]);
    }
}

/// A trace of so many long jobs, and the ticks that lead to the same: some of them are timed, from the start on, and taken for all.
fn print_long_trace(jobs: u64, chains: u64) {
    const MOST: u64 = 1_000_000;
    const TICKS: u64 = 20_000;
    let set = Set::read(&table_text(&run_load(jobs, chains, 0, MOST))).unwrap();
    let times = set.times(|j| j.most);
    let traced = time(|| {
        black_box(set.trace(black_box(&times)).unwrap());
    });
    let ticked = time(|| {
        let mut state = State::START;
        for _ in 0..TICKS {
            black_box(set.tick(&times, &mut state).unwrap());
        }
    });
    let all = ticked / TICKS as f64 * (jobs * MOST) as f64;
    println!("  us: a trace of jobs of {MOST} ticks by a call: the trace, all its ticks by calls, how many times as long these are");
    println!("{jobs:2} jobs, {chains} chains: {:.1} {:.0} {:.0}", traced / 1_000.0, all / 1_000.0, all / traced);
}

/// What is timed of a run that a caller ticks through, the set being checked at each tick: a tick, and one of the plain reference.
fn call_times((jobs, chains): (u64, u64)) -> Vec<f64> {
    const MOST: u64 = 20;
    let busy = run_load(jobs, chains, 0, MOST);
    let set = Set::read(&table_text(&busy)).unwrap();
    let times = set.times(|j| j.most);
    let called = time(|| {
        let mut state = State::START;
        while black_box(set.tick(&times, &mut state).unwrap()) != Ticked::Finished {}
    });
    let most = vec![MOST; busy.len()];
    let plain = time(|| {
        let mut state = machine::State::start(busy.len());
        loop {
            machine::check(black_box(&busy), &most).unwrap();
            if black_box(machine::tick(&busy, &most, &mut state).unwrap()) == machine::Ticked::Finished {
                break;
            }
        }
    });
    // the tick that answers "finished" counts
    let ticks = (jobs * MOST + 1) as f64;
    vec![called / ticks, plain / ticks]
}

/// Jobs of 1,000 ticks, all released at 0 and each with the priority given for its place.
fn ready_load(jobs: u64, chains: u64, priority: fn(u64) -> u64) -> Vec<Job> {
    (0..).zip(load(jobs, chains)).map(|(i, j)| Job { release: 0, priority: priority(i), least: 1, most: 1_000, ..j }).collect()
}

/// A state in the middle of a run: the first half of each chain is complete, higher chains before lower ones, and the next job of each is ready.
fn middle(jobs: &[Job], per: u64) -> State {
    let mut complete: Vec<usize> = (0..jobs.len()).filter(|i| 2 * jobs[*i].job <= per).collect();
    complete.sort_by_key(|i| (jobs[*i].job, Reverse(jobs[*i].chain)));
    let mut state = State::START;
    for i in complete {
        state.time += jobs[i].most;
        state.work[i] = jobs[i].most;
        state.completions[i] = state.time;
    }
    state
}

/// What is timed of a tick by a call in such a state, where all jobs are equals and where no two are: that, and one of the plain reference.
fn middle_times((jobs, chains): (u64, u64)) -> Vec<f64> {
    const TICKS: u64 = 500;
    let priorities: [fn(u64) -> u64; 2] = [|_| 1, |place| place];
    let measure = |priority| {
        let ready = ready_load(jobs, chains, priority);
        let set = Set::read(&table_text(&ready)).unwrap();
        let times = set.times(|j| j.most);
        let from = middle(&ready, jobs / chains);
        let called = time(|| {
            let mut state = from;
            for _ in 0..TICKS {
                black_box(set.tick(&times, &mut state).unwrap());
            }
        });
        let most: Vec<u64> = times.iter().collect();
        let plain = time(|| {
            let mut state = machine::State { time: from.time, work: from.work.to_vec(), completions: from.completions.to_vec() };
            for _ in 0..TICKS {
                machine::check(black_box(&ready), &most).unwrap();
                black_box(machine::tick(&ready, &most, &mut state).unwrap());
            }
        });
        [called / TICKS as f64, plain / TICKS as f64]
    };
    priorities.map(measure).concat()
}

/// What is timed of the blocks of a set by ERT, CJA and ITR, the set being checked and its bounds worked out: that, and the same of the plain reference.
fn blocks_times((jobs, chains): (u64, u64)) -> Vec<f64> {
    let jobs = load(jobs, chains);
    let held = Set::read(&table_text(&jobs)).unwrap();
    let measure = |algorithm| {
        let called = time(|| {
            black_box(held.blocks(black_box(algorithm)).unwrap());
        });
        let plain = time(|| {
            set::check(black_box(&jobs)).unwrap();
            black_box(blocks::by(&jobs, algorithm as u64).unwrap());
        });
        [called, plain]
    };
    [Algorithm::Ert, Algorithm::Cja, Algorithm::Itr].map(measure).concat()
}

fn print_blocks(jobs: u64, chains: u64, times: &[f64]) {
    let [ert, plain_ert, cja, plain_cja, itr, plain_itr] = times else { unreachable!() };
    print!("{jobs:2} jobs, {chains} chains: {ert:6.0} {:5.2} | {cja:7.0} {:5.2} | ", ert / plain_ert, cja / plain_cja);
    println!("{itr:8.0} {:5.2}", itr / plain_itr);
}

/// Equals of as many ticks as make the most rows of a recording, where each row is one tick.
fn equals_load(jobs: u64, chains: u64) -> Vec<Job> {
    let most = recording::MAX_ROWS as u64 / jobs;
    load(jobs, chains).into_iter().map(|j| Job { release: 0, priority: 1, least: most, most, ..j }).collect()
}

/// The rows of a run in which such jobs take turns, chain by chain and tick by tick.
fn by_turns(jobs: &[Job], chains: u64) -> Vec<Span> {
    let rows = recording::MAX_ROWS as u64;
    let job_at = |tick: u64| 1 + tick / chains / jobs[0].most;
    (0..rows).map(|tick| Span { chain: 1 + tick % chains, job: job_at(tick), from: tick, to: tick + 1 }).collect()
}

/// What is timed of the comparison of two recordings with the most rows, both legal, in which the last two jobs go in either order: that, and one of
/// the plain reference, which goes from tick to tick.
fn recordings_times((jobs, chains): (u64, u64)) -> Vec<f64> {
    let jobs = equals_load(jobs, chains);
    let held = Set::read(&table_text(&jobs)).unwrap();
    let rows = by_turns(&jobs, chains);
    let mut exchanged = rows.clone();
    let [.., one, other] = &mut exchanged[..] else { unreachable!() };
    (one.chain, other.chain) = (other.chain, one.chain);
    let [first, second] = [rows, exchanged].map(|rows| text::rows_text(&rows).into_bytes());
    let compared = held.compare(&first, &second).unwrap();
    assert!(compared.first_legal && compared.second_legal && compared.difference == Some(recording::MAX_ROWS as u64 - 2));
    let called = time(|| {
        black_box(held.compare(black_box(&first), black_box(&second)).unwrap());
    });
    let plain = time(|| {
        black_box(recording::compare(black_box(&jobs), black_box(&first), black_box(&second)).unwrap());
    });
    vec![called, plain]
}

/// The least of each time over some passes, since a machine that others use is slow for seconds on end.
fn least<Load: Copy>(measure: impl Fn(Load) -> Vec<f64>, loads: &[Load]) -> Vec<Vec<f64>> {
    let mut best: Vec<Vec<f64>> = vec![];
    for pass in 0..PASSES {
        for (i, &load) in loads.iter().enumerate() {
            let times = measure(load);
            if pass == 0 {
                best.push(times);
            } else {
                best[i].iter_mut().zip(times).for_each(|(b, t)| *b = b.min(t));
            }
        }
    }
    best
}

const PASSES: usize = 20;

/// Jobs and chains of the sets whose bounds and blocks are timed.
const LOADS: [(u64, u64); 8] = [(8, 2), (16, 2), (32, 2), (64, 2), (8, 8), (16, 8), (32, 8), (64, 8)];

fn main() {
    if std::env::args().nth(1).as_deref() == Some(rounds::PASS) {
        return rounds::pass();
    }
    println!("  ns: reading, ratio | ERT, CJA, ITR | bounds with text, ratio");
    let times = least(|(jobs, chains)| bounds_times(&table_text(&load(jobs, chains))), &LOADS);
    for (&(jobs, chains), times) in LOADS.iter().zip(&times) {
        print_bounds(jobs, chains, times);
    }
    rounds::print();
    println!("  ns: a table written by a call, which checks the set: short numbers, ratio | long ones, ratio");
    let loads = [(8, 2), (64, 8)];
    for ((jobs, chains), times) in loads.iter().zip(&least(writing_times, &loads)) {
        let [short, plain_short, long, plain_long] = times[..] else { unreachable!() };
        println!("{jobs:2} jobs, {chains} chains: {short:6.0} {:5.2} | {long:6.0} {:5.2}", short / plain_short, long / plain_long);
    }
    print_traces();
    print_long_trace(64, 8);
    let loads = [(6, 2), (64, 8)];
    println!("  ns a tick by a call, which checks the set, the times and the state: the part, the plain reference, ratio");
    for ((jobs, chains), times) in loads.iter().zip(&least(call_times, &loads)) {
        println!("{jobs:2} jobs, {chains} chains: {:6.1} {:6.1} {:5.2}", times[0], times[1], times[0] / times[1]);
    }
    println!("  ns a tick by such a call in the middle of a run, with a job of each chain ready: all equals, ratio | no two equals, ratio");
    let loads = [(6, 2), (64, 16)];
    for ((jobs, chains), times) in loads.iter().zip(&least(middle_times, &loads)) {
        let [equals, plain_equals, different, plain_different] = times[..] else { unreachable!() };
        println!("{jobs:2} jobs, {chains} chains: {equals:6.1} {:5.2} | {different:6.1} {:5.2}", equals / plain_equals, different / plain_different);
    }
    println!("  ns: blocks by a call, which checks the set: ERT, ratio | CJA, ratio | ITR, ratio");
    for (&(jobs, chains), times) in LOADS.iter().zip(&least(blocks_times, &LOADS)) {
        print_blocks(jobs, chains, times);
    }
    println!("  us: two recordings of {} rows compared: the part, the plain reference tick by tick, ratio", recording::MAX_ROWS);
    let loads = [(8, 8), (64, 16)];
    for ((jobs, chains), times) in loads.iter().zip(&least(recordings_times, &loads)) {
        println!("{jobs:2} jobs, {chains} chains: {:6.1} {:6.1} {:5.2}", times[0] / 1_000.0, times[1] / 1_000.0, times[0] / times[1]);
    }
}
