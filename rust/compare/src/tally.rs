//! Counts what agrees, what does not, how often each refusal and each case was met, and how many runs readiness decides.

use crate::side::{Answer, Side, PART, WANTED};
use std::collections::BTreeMap;
use std::fmt::Debug;

/// The numbers of refusals go up to this.
const REFUSALS: usize = 16;

/// So many disagreements are printed.
const PRINTED: u64 = 20;

/// Each case has to be met more often than this.
const SELDOM: u64 = 100;

#[derive(Default)]
pub struct Tally {
    passed: u64,
    failed: u64,
    met: [u64; REFUSALS + 1],
    cases: BTreeMap<&'static str, u64>,
    runs: u64,
    decided: u64,
}

impl Tally {
    pub fn same<T: PartialEq + Debug>(&mut self, what: &str, given: &dyn Debug, got: T, wanted: T) {
        if got == wanted {
            self.passed += 1;
            return;
        }
        self.failed += 1;
        if self.failed <= PRINTED {
            println!("{what}: got {got:?}, wanted {wanted:?}, of {given:?}");
        }
    }

    /// What both sides answer.
    pub fn answers(&mut self, what: &str, given: &dyn Debug, call: impl Fn(&Side) -> Answer) {
        self.lent::<u8>(what, given, &[], |side, _| call(side));
    }

    /// What both sides answer and leave in lent memory that holds this.
    pub fn lent<T: Copy + PartialEq + Debug>(&mut self, what: &str, given: &dyn Debug, held: &[T], call: impl Fn(&Side, &mut [T]) -> Answer) {
        let (mut left, mut wanted_left) = (held.to_vec(), held.to_vec());
        let (answer, wanted) = (call(&PART, &mut left), call(&WANTED, &mut wanted_left));
        if let Some(met) = answer.err().and_then(|number| self.met.get_mut(number as usize)) {
            *met += 1;
        }
        self.same(what, given, (answer, left), (wanted, wanted_left));
    }

    /// The same in buffers of lengths around the exact one; where a call is refused any will do.
    pub fn around<T: Copy + PartialEq + Debug>(
        &mut self,
        what: &str,
        given: &dyn Debug,
        (exact, fill): (usize, T),
        call: impl Fn(&Side, &mut [T]) -> Answer,
    ) {
        for size in [0, exact.saturating_sub(1), exact, exact + 1, exact + 100] {
            self.lent(what, given, &vec![fill; size], &call);
        }
    }

    /// Counts whether a case is met here.
    pub fn case(&mut self, case: &'static str, met: bool) {
        *self.cases.entry(case).or_default() += u64::from(met);
    }

    /// Counts a run, and whether readiness decides it.
    pub fn run(&mut self, decided: bool) {
        self.runs += 1;
        self.decided += u64::from(decided);
    }

    /// Prints the counts, and answers whether all agreed, each refusal was met, each case not seldom, and readiness decided many runs.
    pub fn close(&mut self) -> bool {
        for number in 1..=REFUSALS {
            self.same("refusals met", &number, self.met[number] > 0, true);
        }
        for (case, met) in self.cases.clone() {
            self.same("cases met", &case, met > SELDOM, true);
        }
        let (decided, runs) = (self.decided, self.runs);
        self.same("runs that readiness decides", &(decided, runs), decided > runs / 4, true);
        println!("compare: refusals met, from 1 on: {:?}", &self.met[1..]);
        println!("compare: cases met: {:?}", self.cases);
        println!("compare: readiness decides {decided} of {runs} runs");
        println!("{} passed, {} failed", self.passed, self.failed);
        self.failed == 0
    }
}
