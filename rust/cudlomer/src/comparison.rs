//! Two recordings of a run, held against each other.

use crate::{answer, ffi, Refused, Set};

/// How two recordings compare: whether each is legal, and the first tick at which they show different work, or none.
#[derive(Clone, Copy, Debug, PartialEq, Eq)]
pub struct Comparison {
    pub first_legal: bool,
    pub second_legal: bool,
    pub difference: Option<u64>,
}

impl Comparison {
    /// How many numbers a comparison is: whether each is legal, whether they differ, and the tick.
    const NUMBERS: usize = 4;
}

impl Set {
    /// The most rows of a recording.
    pub const MAX_RECORDED_ROWS: usize = 256;

    /// Compares two recordings of the set's jobs, whoever wrote them. A recording is a text of any length: the header line `chain,job,from,to`, then
    /// a row for each time that a job runs without a break, the earliest first, with lines and numbers as in a table. It is legal where each job runs
    /// to its end, for some time from its least to its most, and at each tick one of the most urgent ready jobs runs, equals in any order, or none
    /// where none is ready. Recordings differ at a tick at which they show different jobs, or one of them a job and the other none, as each does
    /// behind its last row; those that are not legal are compared too.
    ///
    /// Refuses the first recording, then the second: with 15 where the header or a line is wrong, or a row names no job of the set, does not begin
    /// before it ends, begins before the end of the row before it, or goes on with the job of that row without a gap; with 16 where anything stands
    /// behind 256 rows.
    ///
    /// ```
    /// # use cudlomer::{Comparison, Job, Set};
    /// let job = Job { chain: 1, job: 1, release: 5, priority: 1, least: 3, most: 7, deadline: 12 };
    /// let kernel = b"chain,job,from,to\r\n1,1,5,9\r\n";
    /// let analyser = b"chain,job,from,to\r\n1,1,5,7\r\n";
    /// let compared = Set::of(&[job])?.compare(kernel, analyser)?;
    /// assert_eq!(compared, Comparison { first_legal: true, second_legal: false, difference: Some(7) });
    /// # Ok::<(), cudlomer::Refused>(())
    /// ```
    pub fn compare(&self, first: &[u8], second: &[u8]) -> Result<Comparison, Refused> {
        let mut numbers = [0; Comparison::NUMBERS];
        let (out, room) = (numbers.as_mut_ptr(), Comparison::NUMBERS);
        let (jobs, length) = (self.numbers(), self.length());
        // The function reads within the set's jobs and the two slices, and writes within the array.
        answer(unsafe { ffi::cudlomer_set_compare(jobs, length, first.as_ptr(), first.len(), second.as_ptr(), second.len(), out, room) })?;
        let [first_legal, second_legal, differ, tick] = numbers;
        Ok(Comparison { first_legal: first_legal == 1, second_legal: second_legal == 1, difference: (differ == 1).then_some(tick) })
    }
}
