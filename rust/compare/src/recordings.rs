//! Comparisons of two recordings: of runs that pick freely among equals, of the machine's run, of all that show a few ticks, of about as many rows as
//! there may be, of late times, and of damaged ones.

use crate::draw::Draw;
use crate::engine;
use crate::runs::{rows_of, Entries};
use crate::side::{jobs_of, numbers_of, Pair, PART};
use crate::tally::Tally;
use crate::wrapper;
use cudlomer::Set;
use reference::machine::Span;
use reference::{recording, set, text, Job};

/// So many sets are drawn for runs, for all short recordings, and for many rows.
const SETS: usize = 3_000;
const SHORT_SETS: usize = 12;
const LONG_SETS: usize = 100;

/// So many ticks has a short recording.
const TICKS: u32 = 6;

/// A recording that ends later takes the reference long, which goes from tick to tick.
const LATEST: u64 = 100_000;

/// So many numbers is a comparison.
pub const NUMBERS: usize = 4;

/// A job that runs for a tick or longer, from the start on.
const JOB: Job = Job { chain: 1, job: 1, release: 0, priority: 1, least: 1, most: 1_000_000, deadline: 0 };

/// What may stand behind the last row.
const BEHIND: [&str; 6] = ["\r\n", "\r", "\n", "a", ",,,\r\n", "1,1,256,257"];

/// Lines of which the first alone is a row of that job.
const LINES: [&str; 20] = [
    "1,1,0,1",
    "1,1,0,10000000000",
    "1,1,0,18446744073709551617",
    "1,1,0,01",
    "1,1,00,1",
    "01,1,0,1",
    "1,1,0,",
    "1,1,,1",
    "1,1,0",
    "1,1,0,1,",
    "1,1,0,1,1",
    ",1,1,0,1",
    " 1,1,0,1",
    "1,1,0,+1",
    "1,1,0,1\n",
    "1,2,0,1",
    "0,1,0,1",
    "1,0,0,1",
    "4294967297,1,0,1",
    "1,4294967297,0,1",
];

pub fn compare(tally: &mut Tally, draw: &mut Draw) {
    compare_late(tally);
    compare_lines(tally);
    for _ in 0..SHORT_SETS {
        compare_short(tally, &draw.few_jobs(3, 2, 2));
    }
    for _ in 0..SETS {
        let jobs = draw.few_jobs(6, 9, 5);
        compare_runs(tally, draw, &jobs);
    }
    for _ in 0..LONG_SETS {
        compare_many_rows(tally, draw);
    }
}

/// Two runs, each beside itself, the other and damaged ones, and one beside the machine's.
fn compare_runs(tally: &mut Tally, draw: &mut Draw, jobs: &[Job]) {
    let numbers = numbers_of(jobs);
    let times = [draw.times(jobs), draw.times(jobs)];
    let runs = times.each_ref().map(|times| draw.free_run(jobs, times));
    let rows = runs.each_ref().map(|run| rows_of(jobs, run));
    let texts = rows.each_ref().map(|rows| draw.recording(rows));
    for (i, other) in [(0, 0), (0, 1), (1, 0), (1, 1)] {
        let (text, beside) = (&texts[i], &texts[other]);
        compare_pair(tally, &numbers, text, beside);
        for _ in 0..2 {
            let damaged = draw.damaged_run(jobs, &runs[i]);
            let damaged = draw.recording(&rows_of(jobs, &damaged));
            compare_pair(tally, &numbers, &damaged, beside);
            compare_pair(tally, &numbers, &damaged, &damaged);
            let damaged = draw.damaged_rows(&rows[i]);
            compare_pair(tally, &numbers, beside, &draw.recording(&damaged));
            compare_pair(tally, &numbers, &draw.damaged_recording(text), beside);
            compare_pair(tally, &numbers, &draw.damaged_recording(beside), &draw.damaged_recording(text));
        }
    }
    compare_pair(tally, &numbers, &machine(&numbers, &times[0]), &texts[0]);
    compare_buffers(tally, &numbers, &texts[0], &texts[1]);
    compare_buffers(tally, &numbers, &texts[0], &draw.damaged_recording(&texts[1]));
    compare_buffers(tally, &draw.damaged_set(&numbers), &texts[0], &draw.damaged_recording(&texts[1]));
    compare_wrapper(tally, jobs, &texts[0], &texts[1]);
    compare_wrapper(tally, jobs, &texts[0][1..], &texts[1]);
}

/// The recording of the machine's run with these times, by the part.
pub fn machine(numbers: &[u64], times: &[u64]) -> Vec<u8> {
    text::rows_text(&engine::traced(numbers, times)).into_bytes()
}

/// Every recording of a few ticks, each beside the one before it.
fn compare_short(tally: &mut Tally, jobs: &[Job]) {
    let (numbers, kinds) = (numbers_of(jobs), jobs.len() + 1);
    let mut before = text::rows_text(&[]).into_bytes();
    for n in 0..kinds.pow(TICKS) {
        let kind_at = |tick| n / kinds.pow(tick) % kinds;
        let entries: Entries = (0..TICKS).map(|tick| Some(kind_at(tick)).filter(|place| *place < jobs.len())).collect();
        let text = text::rows_text(&rows_of(jobs, &entries)).into_bytes();
        compare_pair(tally, &numbers, &before, &text);
        before = text;
    }
}

/// About as many rows as there may be, of two equals by turns, with something wrong in them and with something behind the last.
fn compare_many_rows(tally: &mut Tally, draw: &mut Draw) {
    let jobs = [JOB, Job { chain: 2, ..JOB }];
    let numbers = numbers_of(&jobs);
    let by_turns = |rows: usize| rows_of(&jobs, &(0..rows).map(|tick| Some(tick % 2)).collect::<Entries>());
    let most = text::rows_text(&by_turns(recording::MAX_ROWS)).into_bytes();
    for count in recording::MAX_ROWS - 2..=recording::MAX_ROWS + 2 {
        let rows = by_turns(count);
        let text = draw.recording(&rows);
        compare_pair(tally, &numbers, &text, &most);
        let damaged = draw.damaged_rows(&rows);
        compare_pair(tally, &numbers, &most, &draw.recording(&damaged));
        compare_pair(tally, &numbers, &draw.damaged_recording(&text), &most);
    }
    for behind in BEHIND {
        let text = [&most, behind.as_bytes()].concat();
        compare_pair(tally, &numbers, &most, &text);
        compare_pair(tally, &numbers, &text, &draw.damaged_recording(&most));
        compare_pair(tally, &numbers, &most, &[&most[..most.len() - 2], behind.as_bytes()].concat());
    }
}

/// What is read of two recordings; none where one of them ends late.
fn read_early(jobs: &[Job], texts: Pair) -> Option<[Result<Vec<Span>, u8>; 2]> {
    let read = texts.map(|text| recording::read(jobs, text));
    let late = read.iter().flatten().any(|rows| recording::end(rows) > LATEST);
    (!late).then_some(read)
}

fn compare_pair(tally: &mut Tally, numbers: &[u64], first: &[u8], second: &[u8]) {
    let (jobs, texts) = (jobs_of(numbers), [first, second]);
    let Some(read) = read_early(&jobs, texts) else { return };
    let given = (numbers, texts.map(String::from_utf8_lossy));
    tally.lent("set_compare", &given, &[u64::MAX; NUMBERS + 1], |side, out| (side.set_compare)(numbers, texts, out));
    count(tally, &jobs, &read);
}

/// The same in buffers around the exact length; the set may be a damaged one.
fn compare_buffers(tally: &mut Tally, numbers: &[u64], first: &[u8], second: &[u8]) {
    let (jobs, texts) = (jobs_of(numbers), [first, second]);
    if read_early(&jobs, texts).is_none() {
        return;
    }
    let given = (numbers, texts.map(String::from_utf8_lossy));
    tally.around("set_compare", &given, (NUMBERS, u64::MAX), |side, out| (side.set_compare)(numbers, texts, out));
    tally.case("two recordings of a refused set", set::check(&jobs).is_err());
}

fn compare_wrapper(tally: &mut Tally, jobs: &[Job], first: &[u8], second: &[u8]) {
    let set = Set::of(&jobs.iter().map(wrapper::job).collect::<Vec<cudlomer::Job>>()).unwrap();
    let got = set.compare(first, second).map(|c| (c.first_legal, c.second_legal, c.difference)).map_err(|refused| refused.0);
    let wanted = recording::compare(jobs, first, second).map(|c| (c.first_legal, c.second_legal, c.difference));
    tally.same("Set::compare", &(jobs, first, second), got, wanted);
}

/// Which cases the two recordings of an accepted set are.
fn count(tally: &mut Tally, jobs: &[Job], read: &[Result<Vec<Span>, u8>; 2]) {
    let refused = read.each_ref().map(|read| read.as_ref().err().copied());
    tally.case("first recording refused with 15", refused[0] == Some(15));
    tally.case("first recording refused with 16", refused[0] == Some(16));
    tally.case("second recording refused with 15", refused == [None, Some(15)]);
    tally.case("second recording refused with 16", refused == [None, Some(16)]);
    let [Ok(first), Ok(second)] = read else { return };
    let legal = [first, second].map(|rows| recording::is_legal(jobs, rows));
    let differ = recording::difference(first, second).is_some();
    tally.case("legal recordings that differ", legal == [true, true] && differ);
    tally.case("legal recordings that do not differ", legal == [true, true] && !differ);
    tally.case("illegal recordings that differ", legal == [false, false] && differ);
    tally.case("illegal recordings that do not differ", legal == [false, false] && !differ);
    tally.case("first recording legal alone", legal == [true, false]);
    tally.case("second recording legal alone", legal == [false, true]);
}

/// Each of those lines as the only row, beside each other.
fn compare_lines(tally: &mut Tally) {
    let numbers = numbers_of(&[JOB]);
    let recordings = LINES.map(|line| [recording::HEADER, "\r\n", line, "\r\n"].concat().into_bytes());
    for first in &recordings {
        for second in &recordings {
            compare_pair(tally, &numbers, first, second);
        }
    }
}

/// Times of ten digits, of a job that is released last of all and of one that is released at 0. What is wanted was worked out by hand.
fn compare_late(tally: &mut Tally) {
    let (late, early) = (Job { release: 1_000_000_000, ..JOB }, JOB);
    let least = "1,1,1000000000,1000000001";
    let most = "1,1,1000000000,1001000000";
    let known: [(Job, &str, &str, [u64; NUMBERS]); 9] = [
        (late, least, most, [1, 1, 1, 1_000_000_001]),
        (late, most, most, [1, 1, 0, 0]),
        (late, least, "1,1,999999999,1000000001", [1, 0, 1, 999_999_999]),
        (late, "1,1,1000000001,1000000002", least, [0, 1, 1, 1_000_000_000]),
        (late, most, "1,1,1000000000,1001000001", [1, 0, 1, 1_001_000_000]),
        // the same in their low 32 bits
        (late, least, "1,1,5294967296,5294967297", [1, 0, 1, 1_000_000_000]),
        (early, "1,1,0,4294967297", "1,1,0,1", [0, 1, 1, 1]),
        (early, "1,1,0,1\r\n1,1,9999999998,9999999999", "1,1,0,1", [0, 1, 1, 9_999_999_998]),
        (early, "1,1,0,9999999999", "1,1,0,9999999999", [0, 0, 0, 0]),
    ];
    for (job, first, second, wanted) in known {
        let [first, second] = [first, second].map(|rows| [recording::HEADER, "\r\n", rows].concat().into_bytes());
        let mut out = [u64::MAX; NUMBERS];
        let answer = (PART.set_compare)(&numbers_of(&[job]), [&first, &second], &mut out);
        tally.same("set_compare of late times", &(first, second), (answer, out), (Ok(NUMBERS as i64), wanted));
    }
}
