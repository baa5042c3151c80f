//! Times a round of ITR beside the plain reference and beside a tuned scan.

use crate::{load, scan, table_text};
use cudlomer::{Algorithm, Set};
use reference::{bounds, Job};
use std::hint::black_box;
use std::process::{Command, Stdio};
use std::time::Instant;
use std::{env, thread};

/// The argument by which the program makes one pass.
pub const PASS: &str = "rounds";

const PASSES: usize = 15;
const TURNS: usize = 100;

/// How priorities go along a chain: a name, and the priority of a job in a chain of so many.
type Priorities = (&'static str, fn(&Job, u64) -> u64);

const PRIORITIES: [Priorities; 4] =
    [("mixed", |job, _| job.priority), ("equal", |_, _| 1), ("rising", |job, _| job.job), ("falling", |job, per| per - job.job + 1)];

struct Load {
    count: u64,
    chains: u64,
    priorities: &'static str,
    jobs: Vec<Job>,
}

impl Load {
    fn of(count: u64, chains: u64, (priorities, priority): Priorities) -> Load {
        let jobs = load(count, chains).into_iter().map(|job| Job { priority: priority(&job, count / chains), ..job }).collect();
        Load { count, chains, priorities, jobs }
    }
}

/// So many jobs in so many chains, with each of the priorities.
fn loads() -> Vec<Load> {
    let mut loads = vec![];
    for count in [8, 16, 32, 64] {
        for chains in [1, 2, 4, 8, 16].into_iter().filter(|&chains| chains <= count) {
            loads.extend(PRIORITIES.map(|priorities| Load::of(count, chains, priorities)));
        }
    }
    loads
}

/// How many rounds ITR takes; the part, the plain reference and the tuned scan agree on them and on the bounds.
fn rounds(jobs: &[Job]) -> u64 {
    let held = Set::read(&table_text(jobs)).unwrap();
    let part: Vec<u64> = held.bounds(Algorithm::Itr).unwrap().iter().collect();
    let plain = bounds::bounds(jobs);
    let (tuned, rounds) = scan::itr(jobs);
    assert_eq!((&part[..], held.rounds().unwrap()), (&plain.itr[..], plain.rounds));
    assert_eq!((&tuned[..jobs.len()], rounds), (&plain.itr[..], plain.rounds));
    rounds
}

/// How many nanoseconds so many calls take.
fn batch(calls: u64, call: &mut dyn FnMut()) -> f64 {
    let start = Instant::now();
    for _ in 0..calls {
        call();
    }
    start.elapsed().as_nanos() as f64
}

/// The number at that place in order of size.
fn ranked(place: usize, mut numbers: Vec<f64>) -> f64 {
    *numbers.select_nth_unstable_by(place, f64::total_cmp).1
}

/// Nanoseconds of each call, over short batches that take turns; a tenth of its batches are quicker.
fn in_turns<const CALLS: usize>(mut calls: [&mut dyn FnMut(); CALLS]) -> [f64; CALLS] {
    let counts = calls.each_mut().map(|call| (0..).map(|i| 1 << i).find(|&count| batch(count, call) > 100_000.0).unwrap());
    let mut times = counts.map(|_| vec![]);
    for _ in 0..TURNS {
        for (i, call) in calls.iter_mut().enumerate() {
            times[i].push(batch(counts[i], call) / counts[i] as f64);
        }
    }
    times.map(|times| ranked(TURNS / 10, times))
}

/// Nanoseconds of ITR by the part, which is a verdict less one by no algorithm, by the plain reference and by the tuned scan.
fn times(jobs: &[Job]) -> [f64; 3] {
    let table = &table_text(jobs)[..];
    let [whole, reading, plain, tuned] = in_turns([
        &mut || {
            black_box(cudlomer::verdict(black_box(table), 3).unwrap());
        },
        &mut || {
            black_box(cudlomer::verdict(black_box(table), 9).unwrap_err());
        },
        &mut || {
            black_box(bounds::by(black_box(jobs), 3).unwrap());
        },
        &mut || {
            black_box(scan::itr(black_box(jobs)));
        },
    ]);
    [whole - reading, plain, tuned]
}

/// Prints of each load what a round takes: its times less those of one job, which are what a call makes once, divided by its rounds.
fn print_pass() {
    let one = times(&load(1, 1));
    for load in loads() {
        let rounds = rounds(&load.jobs) as f64;
        let all = times(&load.jobs);
        let [part, plain, tuned] = [0, 1, 2].map(|i| (all[i] - one[i]) / rounds);
        println!("{part} {plain} {tuned}");
    }
}

/// One pass, in a thread: there the stack begins at the same place of a page in every process.
pub fn pass() {
    thread::spawn(print_pass).join().unwrap();
}

/// What a pass prints, which is a process of its own: how the memory of a process lies moves small times for as long as it runs.
fn passed() -> Vec<Vec<f64>> {
    let output = Command::new(env::current_exe().unwrap()).arg(PASS).stderr(Stdio::inherit()).output().unwrap();
    assert!(output.status.success());
    let numbers = |line: &str| line.split(' ').map(|number| number.parse().unwrap()).collect();
    String::from_utf8(output.stdout).unwrap().lines().map(numbers).collect()
}

/// Prints the medians over some passes.
pub fn print() {
    println!("  us a round of ITR, less what one job takes, ratio to plain reference, to tuned scan: mixed priorities | equal | rising | falling");
    let passes: Vec<Vec<Vec<f64>>> = (0..PASSES).map(|_| passed()).collect();
    let median = |load: usize, i: usize| ranked(PASSES / 2, passes.iter().map(|pass| pass[load][i]).collect());
    let loads = loads();
    let medians: Vec<[f64; 3]> = (0..loads.len()).map(|load| [0, 1, 2].map(|i| median(load, i))).collect();
    for (loads, medians) in loads.chunks(PRIORITIES.len()).zip(medians.chunks(PRIORITIES.len())) {
        let cell = |[part, plain, tuned]: &[f64; 3]| format!("{:7.3} {:5.2} {:5.2}", part / 1_000.0, part / plain, part / tuned);
        let cells: Vec<String> = medians.iter().map(cell).collect();
        println!("{:2} jobs, {:2} chains: {}", loads[0].count, loads[0].chains, cells.join(" | "));
    }
    let ratios = medians.iter().map(|[part, _, tuned]| part / tuned);
    let (ratio, load) = ratios.zip(&loads).max_by(|a, b| a.0.total_cmp(&b.0)).unwrap();
    println!("largest ratio to the tuned scan: {ratio:.2}, of {} jobs, {} chains, {} priorities", load.count, load.chains, load.priorities);
}
