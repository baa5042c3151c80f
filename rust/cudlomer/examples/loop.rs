//! A maker's loop. Reads a set from a table, asks by ITR whether the jobs of a second table may come aboard as a further chain, and ticks until
//! all jobs are complete, each after its most time. Prints what ran from when to when.

use cudlomer::{Algorithm, Refused, Set, State, Ticked, Verdict};
use std::process::exit;

/// The answer of a call; a refusal ends the program.
fn accepted<T>(what: &str, answer: Result<T, Refused>) -> T {
    answer.unwrap_or_else(|refused| {
        eprintln!("{what}: {refused}");
        exit(1)
    })
}

fn read_set(name: &str) -> Set {
    let text = std::fs::read(name).unwrap_or_else(|error| {
        eprintln!("{name}: {error}");
        exit(2)
    });
    accepted(name, Set::read(&text))
}

fn print_span(from: u64, to: u64, ticked: Ticked) {
    match ticked {
        Ticked::Ran { chain, job } => println!("{from},{to},{chain},{job}"),
        _ => println!("{from},{to},idle"),
    }
}

fn run(set: &Set) {
    let times = set.times(|job| job.most);
    let mut state = State::START;
    let (mut from, mut last) = (0, Ticked::Idle);
    println!("from,to,chain,job");
    while last != Ticked::Finished {
        let now = state.time;
        let ticked = accepted("tick", set.tick(&times, &mut state));
        if ticked == last {
            continue;
        }
        if from < now {
            print_span(from, now, last);
        }
        (from, last) = (now, ticked);
    }
}

fn main() {
    let names: Vec<String> = std::env::args().skip(1).collect();
    let Some(table) = names.first() else {
        eprintln!("usage: loop TABLE [CHAIN]");
        exit(2)
    };
    let mut set = read_set(table);
    if let Some(name) = names.get(1) {
        let admitted = accepted(name, set.admit(read_set(name).jobs(), Algorithm::Itr));
        println!("{}", if admitted == Verdict::Yes { "admitted" } else { "not admitted" });
    }
    run(&set);
}
