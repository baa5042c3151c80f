//! A run as a value change dump of IEEE 1364: a wire for each job is 1 while the job runs.

use crate::{machine, Job};

/// A wire takes a value; in order of time, and at one time falls before rises.
#[derive(Clone, Copy, PartialEq, Eq, PartialOrd, Ord)]
struct Change {
    time: u64,
    value: u8,
    place: usize,
}

impl Change {
    fn line(&self) -> String {
        format!("{}{}\n", self.value, identifier(self.place))
    }
}

/// The dump of the run in which each job takes the time given for it.
pub fn waveform_text(jobs: &[Job], times: &[u64]) -> String {
    let (first, later): (Vec<Change>, Vec<Change>) = changes(jobs, times).iter().partition(|c| c.time == 0);
    definitions(jobs) + &first_values(jobs.len(), &first) + &later_values(&later)
}

/// The character that stands for the job at a place, from 0 on.
fn identifier(place: usize) -> char {
    (33 + place as u8) as char
}

/// What a run changes: a rise where a span begins, and a fall where it ends.
fn changes(jobs: &[Job], times: &[u64]) -> Vec<Change> {
    let mut changes = Vec::new();
    for span in machine::trace(jobs, times) {
        let place = jobs.iter().position(|j| (j.chain, j.job) == (span.chain, span.job)).unwrap();
        changes.push(Change { time: span.from, value: 1, place });
        changes.push(Change { time: span.to, value: 0, place });
    }
    changes.sort();
    changes
}

fn definitions(jobs: &[Job]) -> String {
    let wire = |(place, j): (usize, &Job)| format!("$var wire 1 {} c{}j{} $end\n", identifier(place), j.chain, j.job);
    let wires: String = jobs.iter().enumerate().map(wire).collect();
    format!("$timescale 100 us $end\n$scope module core $end\n{wires}$upscope $end\n$enddefinitions $end\n")
}

/// The values of all wires at time 0, of which these have risen.
fn first_values(count: usize, risen: &[Change]) -> String {
    let value = |place| u8::from(risen.iter().any(|c| c.place == place));
    let values: String = (0..count).map(|place| Change { time: 0, value: value(place), place }.line()).collect();
    format!("#0\n$dumpvars\n{values}$end\n")
}

/// The changes of one time after another.
fn later_values(changes: &[Change]) -> String {
    let at_once = |same: &[Change]| format!("#{}\n", same[0].time) + &same.iter().map(Change::line).collect::<String>();
    changes.chunk_by(|a, b| a.time == b.time).map(at_once).collect()
}

#[cfg(test)]
mod tests {
    use super::*;
    use crate::dump;

    const P4: Job = Job { chain: 1, job: 1, release: 5, priority: 1, least: 3, most: 7, deadline: 12 };

    #[test]
    fn the_waveform_of_p4_with_3() {
        let header = "$timescale 100 us $end\n$scope module core $end\n$var wire 1 ! c1j1 $end\n$upscope $end\n$enddefinitions $end\n";
        let text = waveform_text(&[P4], &[3]);
        assert_eq!(text, header.to_owned() + "#0\n$dumpvars\n0!\n$end\n#5\n1!\n#8\n0!\n");
        assert_eq!(dump::spans(&text), Some(machine::trace(&[P4], &[3])));
    }

    /// A job that runs from time 0 on, and one that takes over from it.
    #[test]
    fn a_rise_at_0_and_a_fall_before_a_rise() {
        let jobs = [Job { release: 0, ..P4 }, Job { chain: 2, priority: 2, ..P4 }];
        assert!(waveform_text(&jobs, &[6, 3]).ends_with("#0\n$dumpvars\n1!\n0\"\n$end\n#5\n0!\n1\"\n#8\n0\"\n1!\n#9\n0!\n"));
    }
}
