//! A safe wrapper over the C functions of the part: sets of jobs, texts of tables, and recordings. Nothing here allocates memory.
//!
//! A set comes from the text of a table, a further chain is admitted, and the loop ticks:
//!
//! ```
//! use cudlomer::{Algorithm, Job, Set, State, Ticked, Verdict};
//!
//! let table = b"chain,job,release,priority,least,most,deadline\r\n1,1,0,1,4,6,6\r\n1,2,1,1,2,2,9\r\n";
//! let mut set = Set::read(table)?;
//! let further = Job { release: 10, priority: 0, least: 2, most: 3, deadline: 20, ..Job::NONE };
//! assert_eq!(set.admit(&[further], Algorithm::Itr)?, Verdict::Yes);
//!
//! let times = set.times(|job| job.most);
//! let mut state = State::START;
//! loop {
//!     match set.tick(&times, &mut state)? {
//!         Ticked::Ran { chain, job } => println!("job {job} of chain {chain}"),
//!         Ticked::Idle => println!("idle"),
//!         Ticked::Finished => break,
//!     }
//! }
//! assert_eq!((state.time, &state.work[..3], &state.completions[..3]), (13, &[6, 2, 3][..], &[6, 8, 13][..]));
//! # Ok::<(), cudlomer::Refused>(())
//! ```

#![no_std]

mod comparison;
mod delays;
pub mod ffi;
mod job;
mod machine;
mod refused;
mod set;
mod text;

pub use comparison::Comparison;
pub use delays::{Block, Delays};
pub use job::Job;
pub use machine::{Row, Run, State, Ticked, Times, Trace};
pub use refused::Refused;
pub use set::{Algorithm, Set, Verdict};
pub use text::{bounds, rounds, trace, verdict};

/// What a function answers: a number, or a refusal negated.
fn answer(value: i64) -> Result<u64, Refused> {
    u64::try_from(value).map_err(|_| Refused(value.unsigned_abs() as u8))
}

/// An answer that counts bytes or elements.
fn counted(value: i64) -> Result<usize, Refused> {
    answer(value).map(|n| n as usize)
}
