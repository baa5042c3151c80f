//! Holds the proved part and the plain reference side by side, on tables, sets and recordings drawn from fixed seeds and on damaged ones.

mod admission;
mod blocks;
mod damage;
mod draw;
mod engine;
mod faults;
mod machine;
mod recordings;
mod rounds;
mod runs;
mod sets;
mod side;
mod states;
mod tally;
mod texts;
mod waveform;
mod windows;
mod wrapper;

use draw::{Draw, Kind};
use tally::Tally;

fn main() {
    let mut tally = Tally::default();
    let mut draw = Draw::from_seed(2026);
    waveform::compare_longest(&mut tally);
    faults::compare(&mut tally);
    for kind in Kind::ALL {
        for _ in 0..kind.tables() {
            let jobs = draw.jobs(kind);
            texts::compare(&mut tally, &mut draw, &jobs);
            sets::compare(&mut tally, &mut draw, &jobs);
            admission::compare(&mut tally, &mut draw, kind, &jobs);
            machine::compare(&mut tally, &mut draw, &jobs);
            engine::compare(&mut tally, &mut draw, &jobs);
            wrapper::compare(&mut tally, &mut draw, kind, &jobs);
        }
    }
    engine::compare_drawn(&mut tally, &mut draw);
    recordings::compare(&mut tally, &mut draw);
    rounds::compare(&mut tally, &mut draw);
    if !tally.close() {
        std::process::exit(1);
    }
}
