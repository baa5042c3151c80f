//! The tables with known results of the scope, by the wrapper.

use cudlomer::{Algorithm, Block, Comparison, Delays, Job, Refused, Row, Set, State, Ticked, Verdict};

const HEADER: &str = "chain,job,release,priority,least,most,deadline\r\n";

fn read(records: &str) -> Set {
    Set::read((HEADER.to_owned() + records).as_bytes()).unwrap()
}

fn p1() -> Set {
    read("1,1,0,1,20,40,60\r\n1,2,20,3,5,10,60\r\n1,3,75,1,40,50,170\r\n1,4,130,3,85,85,260\r\n2,1,30,2,10,10,50\r\n2,2,60,2,50,50,120\r\n")
}

fn p4(deadline: u64) -> Job {
    Job { chain: 1, job: 1, release: 5, priority: 1, least: 3, most: 7, deadline }
}

#[test]
fn bounds_rounds_and_verdict_of_p1() {
    let bounds = |algorithm| p1().bounds(algorithm).unwrap().iter().collect::<Vec<u64>>();
    assert_eq!(bounds(Algorithm::Ert), [100, 110, 220, 305, 125, 260]);
    assert_eq!(bounds(Algorithm::Cja), [100, 110, 185, 270, 125, 195]);
    assert_eq!(bounds(Algorithm::Itr), [50, 60, 175, 260, 50, 110]);
    assert_eq!((p1().rounds(), p1().verdict(Algorithm::Itr)), (Ok(2), Ok(Verdict::No)));
}

/// From which job the sum of each bound begins, and the block of the other chain.
fn named(delays: &Delays) -> Vec<(u64, Option<(u64, u64)>)> {
    let other = |place| if place < 4 { 2 } else { 1 };
    let block = |place| delays.block(place, other(place)).map(|Block { first, last }| (first, last));
    (0..6).map(|place| (delays.from(place).unwrap(), block(place))).collect()
}

#[test]
fn blocks_of_p1() {
    let blocks = |algorithm| p1().blocks(algorithm).unwrap();
    let (both, last, second) = (Some((1, 2)), Some((4, 4)), Some((2, 2)));
    assert_eq!(named(&blocks(Algorithm::Ert)), [(1, both), (2, None), (3, both), (4, None), (1, last), (2, last)]);
    assert_eq!(named(&blocks(Algorithm::Cja)), [(1, both), (1, both), (3, both), (3, both), (1, last), (2, last)]);
    assert_eq!(named(&blocks(Algorithm::Itr)), [(1, both), (1, both), (3, both), (3, both), (1, second), (2, second)]);
    let own_or_unknown = [1, 0, 3, u64::MAX].map(|chain| blocks(Algorithm::Itr).block(0, chain));
    assert_eq!(own_or_unknown, [None; 4]);
}

/// Of two blocks of chain 2 that sum to 4 the first is taken.
#[test]
fn the_earliest_of_equal_blocks() {
    let set = read("1,1,0,1,2,2,9\r\n2,1,0,1,4,4,99\r\n2,2,0,0,1,1,99\r\n2,3,0,1,4,4,99\r\n");
    let earliest = Some(Block { first: 1, last: 1 });
    assert_eq!([Algorithm::Ert, Algorithm::Cja, Algorithm::Itr].map(|algorithm| set.blocks(algorithm).unwrap().block(0, 2)), [earliest; 3]);
}

#[test]
fn no_delays_beyond_the_set() {
    let delays = p1().blocks(Algorithm::Itr).unwrap();
    assert_eq!([6, usize::MAX].map(|place| (delays.from(place), delays.block(place, 1))), [(None, None); 2]);
}

#[test]
fn trace_of_p2_and_run_of_p3() {
    let rows = [(1, 1, 0, 30), (2, 1, 30, 40), (1, 1, 40, 50), (1, 2, 50, 60), (2, 2, 60, 110), (1, 3, 110, 160), (1, 4, 160, 245)];
    let set = p1();
    let times = set.times(|job| job.most);
    assert_eq!(set.trace(&times).unwrap().rows(), rows.map(|(chain, job, from, to)| Row { chain, job, from, to }));
    assert_eq!((set.run(&times).unwrap().completions[4], set.run(&times).unwrap().end), (40, 245));
    let shorter = set.times(|job| if (job.chain, job.job) == (1, 1) { 30 } else { job.most });
    assert_eq!(set.run(&shorter).unwrap().completions[4], 50);
}

#[test]
fn deadlines_and_a_shorter_run_of_p4() {
    let set = Set::of(&[p4(12)]).unwrap();
    assert_eq!((set.verdict(Algorithm::Ert), Set::of(&[p4(11)]).unwrap().verdict(Algorithm::Ert)), (Ok(Verdict::Yes), Ok(Verdict::No)));
    assert_eq!(set.run(&set.times(|job| job.least)).unwrap().end, 8);
}

/// The jobs of P1 are released at 0, 20, 75, 130, 30 and 60, where the one at 20 cannot run yet, and complete at 50, 60, 160, 245, 40 and 110. P4
/// with 3 is released at 5 and complete at 8.
#[test]
fn steps_of_p1_and_p4() {
    let (p1, p4) = (p1(), Set::of(&[p4(12)]).unwrap());
    assert_eq!((p1.steps(&p1.times(|job| job.most)), p4.steps(&p4.times(|_| 3))), (Ok(10), Ok(2)));
    let from_0 = Set::of(&[Job { release: 0, ..p4.jobs()[0] }]).unwrap();
    assert_eq!(from_0.steps(&from_0.times(|_| 3)), Ok(1));
    assert_eq!([2, 8].map(|time| p4.steps(&p4.times(|_| time))), [Err(Refused(8)); 2]);
    assert_eq!((p4.steps(&p1.times(|_| 3)), Set::EMPTY.steps(&p1.times(|_| 3))), (Err(Refused(8)), Err(Refused(7))));
}

/// 64 equals of the most time, half of them in a chain that is released as late as can be: 31 and 32 releases after 0 and 64 completions, all at
/// different times.
#[test]
fn steps_of_long_runs() {
    let job = |chain, release| move |job| Job { chain, job, release, priority: 1, least: 1, most: 1_000_000, deadline: 0 };
    let jobs: Vec<Job> = (1..=32).map(job(1, 0)).chain((1..=32).map(job(2, 1_000_000_000))).collect();
    let set = Set::of(&jobs).unwrap();
    let times = set.times(|job| job.most);
    assert_eq!((set.steps(&times), set.run(&times).unwrap().end), (Ok(127), 1_032_000_000));
    assert_eq!(set.trace(&times).unwrap().rows().len(), 64);
}

/// Two equals, of which chain 2 is ready since 0 and chain 1 since 2.
#[test]
fn equals_in_order_of_readiness() {
    let set = read("1,1,2,1,3,3,7\r\n2,1,0,1,4,4,7\r\n");
    let times = set.times(|job| job.most);
    let rows = [(2, 1, 0, 4), (1, 1, 4, 7)];
    assert_eq!(set.trace(&times).unwrap().rows(), rows.map(|(chain, job, from, to)| Row { chain, job, from, to }));
    let mut state = State::START;
    while set.tick(&times, &mut state).unwrap() != Ticked::Finished {}
    assert_eq!((state.time, &state.work[..2], &state.completions[..2]), (7, &[3, 4][..], &[7, 4][..]));
}

/// P4 with 3, byte for byte.
#[test]
fn waveform_of_p4() {
    let set = Set::of(&[p4(12)]).unwrap();
    let mut out = [0; Set::MAX_WAVEFORM];
    let written = set.waveform(&set.times(|_| 3), &mut out).unwrap();
    let header = "$timescale 100 us $end\n$scope module core $end\n$var wire 1 ! c1j1 $end\n$upscope $end\n$enddefinitions $end\n";
    assert_eq!(&out[..written], (header.to_owned() + "#0\n$dumpvars\n0!\n$end\n#5\n1!\n#8\n0!\n").as_bytes());
    assert_eq!(set.waveform(&set.times(|_| 3), &mut out[..written - 1]), Err(Refused(9)));
    assert_eq!(set.waveform(&set.times(|_| 2), &mut out), Err(Refused(8)));
}

/// A recording with these rows.
fn recording(rows: &[&str]) -> String {
    "chain,job,from,to\r\n".to_owned() + &rows.iter().map(|row| (*row).to_owned() + "\r\n").collect::<String>()
}

fn compared(set: &Set, first: &[&str], second: &[&str]) -> Result<Comparison, Refused> {
    set.compare(recording(first).as_bytes(), recording(second).as_bytes())
}

fn legal(difference: Option<u64>) -> Result<Comparison, Refused> {
    Ok(Comparison { first_legal: true, second_legal: true, difference })
}

/// The runs of P2 and P3 are complete runs of P1, and at 30 one has job 1 of chain 2 and the other job 2 of chain 1.
#[test]
fn recordings_of_p1() {
    let last = ["2,2,60,110", "1,3,110,160", "1,4,160,245"];
    let p2 = [&["1,1,0,30", "2,1,30,40", "1,1,40,50", "1,2,50,60"][..], &last].concat();
    let p3 = [&["1,1,0,30", "1,2,30,40", "2,1,40,50"][..], &last].concat();
    assert_eq!([compared(&p1(), &p2, &p2), compared(&p1(), &p2, &p3), compared(&p1(), &p3, &p2)], [legal(None), legal(Some(30)), legal(Some(30))]);
    let short = Comparison { first_legal: false, second_legal: true, difference: Some(160) };
    assert_eq!(compared(&p1(), &p2[..6], &p2), Ok(short));
}

/// P5, two equals: in either order and by turns they are legal, and an idle tick is not while one of them is ready.
#[test]
fn recordings_of_equals() {
    let set = read("1,1,0,1,4,4,8\r\n2,1,0,1,4,4,8\r\n");
    let (chain_1_first, chain_2_first) = (["1,1,0,4", "2,1,4,8"], ["2,1,0,4", "1,1,4,8"]);
    let by_turns = ["1,1,0,1", "2,1,1,2", "1,1,2,5", "2,1,5,8"];
    assert_eq!(compared(&set, &chain_1_first, &chain_2_first), legal(Some(0)));
    assert_eq!(compared(&set, &by_turns, &chain_1_first), legal(Some(1)));
    let with_a_gap = Comparison { first_legal: false, second_legal: true, difference: Some(4) };
    assert_eq!(compared(&set, &["1,1,0,4", "2,1,5,9"], &chain_1_first), Ok(with_a_gap));
    let neither = Comparison { first_legal: false, second_legal: false, difference: None };
    assert_eq!(compared(&set, &[], &[]), Ok(neither));
}

#[test]
fn recordings_that_are_refused() {
    let set = Set::of(&[p4(12)]).unwrap();
    let malformed = ["", "1,1,5", "1,1,5,8,9", "1,1,05,8", "1,1,5,12345678901", "1,2,5,8", "2,1,5,8", "1,1,8,8", "1,1,9,8"];
    for row in malformed {
        assert_eq!(compared(&set, &[row], &["1,1,5,8"]), Err(Refused::MALFORMED_RECORDING), "{row}");
    }
    let rows = [["1,1,5,8", "1,1,7,9"], ["1,1,5,8", "1,1,8,9"]];
    assert_eq!(rows.map(|second| compared(&set, &["1,1,5,8"], &second)), [Err(Refused::MALFORMED_RECORDING); 2]);
    assert_eq!([set.compare(b"", b""), set.compare(b"chain,job,from,to\n", b"")], [Err(Refused::MALFORMED_RECORDING); 2]);
    assert_eq!(Set::EMPTY.compare(b"", b""), Err(Refused::NO_RECORD));
}

/// Two equals by turns, tick by tick: 256 rows are read, and what stands behind them is not.
#[test]
fn recordings_of_256_rows() {
    let set = read("1,1,0,1,1,1000,9999\r\n2,1,0,1,1,1000,9999\r\n");
    let by_turns = |rows: u64| (0..rows).map(|tick| format!("{},1,{tick},{}\r\n", 1 + tick % 2, tick + 1)).collect::<String>();
    let most = recording(&[]) + &by_turns(Set::MAX_RECORDED_ROWS as u64);
    assert_eq!(set.compare(most.as_bytes(), most.trim_end().as_bytes()), legal(None));
    for more in ["1,1,256,257\r\n", "a", "\r\n", "\r"] {
        let too_many = most.clone() + more;
        assert_eq!(set.compare(most.as_bytes(), too_many.as_bytes()), Err(Refused::TOO_MANY_ROWS));
        assert_eq!(set.compare(b"", too_many.as_bytes()), Err(Refused::MALFORMED_RECORDING));
    }
}

#[test]
fn a_chain_is_admitted_or_not() {
    let mut set = Set::EMPTY;
    assert_eq!(set.admit(&[p4(19)], Algorithm::Itr), Ok(Verdict::Yes));
    assert_eq!((set.admit(&[p4(18)], Algorithm::Itr), set.jobs().len()), (Ok(Verdict::No), 1));
    assert_eq!(set.admit(&[p4(19)], Algorithm::Itr), Ok(Verdict::Yes));
    assert_eq!(set.jobs(), [p4(19), Job { chain: 2, ..p4(19) }]);
    let mut out = [0; 100];
    let written = set.write(&mut out).unwrap();
    assert_eq!(&out[..written], (HEADER.to_owned() + "1,1,5,1,3,7,19\r\n2,1,5,1,3,7,19\r\n").as_bytes());
}

#[test]
fn refusals() {
    let set = Set::of(&[p4(12)]).unwrap();
    let times = set.times(|job| job.most);
    assert_eq!(Set::read(b""), Err(Refused(2)));
    assert_eq!(Set::of(&[p4(12); 65]), Err(Refused(5)));
    assert_eq!((Set::of(&[]), Set::EMPTY.rounds()), (Err(Refused(7)), Err(Refused(7))));
    assert_eq!(Set::EMPTY.blocks(Algorithm::Itr), Err(Refused(7)));
    assert_eq!(set.run(&set.times(|job| job.most + 1)), Err(Refused(8)));
    assert_eq!(set.write(&mut [0; 40]), Err(Refused(9)));
    let mut late = State { time: State::LAST_TIME + 1, ..State::START };
    assert_eq!(set.tick(&times, &mut late), Err(Refused(11)));
    assert_eq!((set.tick(&times, &mut State::START.clone()), Refused(11).to_string()), (Ok(Ticked::Idle), "refused with 11".to_owned()));
}

/// Each tool knows its own fault: that of the priorities 12, that of the running times 13 and 14.
#[test]
fn refusals_of_values() {
    let of = |job| Set::of(&[job]);
    let both = Job { priority: 256, ..p4(4_000_000_001) };
    assert_eq!([of(p4(4_000_000_001)), of(both)], [Err(Refused::OUT_OF_LIMITS); 2]);
    let slow = Job { priority: 256, most: 0, ..p4(12) };
    assert_eq!([of(Job { priority: 256, ..p4(12) }), of(slow)], [Err(Refused::PRIORITY_OUT_OF_LIMITS); 2]);
    let times = |least, most| Job { least, most, ..p4(12) };
    let outside = [(0, 7), (1, 0), (1, 1_000_001), (1_000_001, 1)].map(|(least, most)| of(times(least, most)));
    assert_eq!(outside, [Err(Refused::LEAST_OR_MOST_OUT_OF_LIMITS); 4]);
    assert_eq!(of(times(2, 1)), Err(Refused::LEAST_ABOVE_MOST));
    let mut set = of(p4(12)).unwrap();
    assert_eq!((set.admit(&[times(2, 1)], Algorithm::Itr), set), (Err(Refused::LEAST_ABOVE_MOST), of(p4(12)).unwrap()));
}

/// The names and numbers are those of the header.
#[test]
fn refusals_are_named() {
    let header = include_str!("../../../include/cudlomer.h");
    let wrapper = include_str!("../src/refused.rs");
    let body = header.split("enum cudlomer_refusal {").nth(1).unwrap().split("};").next().unwrap();
    let named: Vec<&str> = body.lines().filter_map(|line| line.trim().strip_prefix("CUDLOMER_")?.split([',', '/']).next()).collect();
    assert_eq!(named.len(), 16);
    for constant in named {
        assert!(wrapper.contains(&format!("    {}, ", constant.trim())), "{constant}");
    }
}

/// P4, complete at 20, is completed after its release at 5 and not after 20.
#[test]
fn completions_that_cannot_be() {
    let set = Set::of(&[p4(12)]).unwrap();
    let times = set.times(|job| job.most);
    let ticked = |completion| {
        let mut state = State { time: 20, ..State::START };
        (state.work[0], state.completions[0]) = (7, completion);
        set.tick(&times, &mut state)
    };
    assert_eq!([0, 5, 21, u64::MAX].map(ticked), [Err(Refused(11)); 4]);
    assert_eq!([6, 20].map(ticked), [Ok(Ticked::Finished); 2]);
}
