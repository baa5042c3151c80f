//! The refusals, by their numbers and names.

use core::fmt;

/// The number of a refusal. Of bad jobs the first decides, which is checked for 4, 5, 6, 12, 13 and 14 in this order; 7 comes last. Of a bad text 1
/// and 2 come first; then the first bad line decides, which is checked for 3, then as a job; 7 comes last. Of a bad recording the first bad line
/// decides: 16 for any line behind 256 rows, whatever it holds, else 15.
///
/// So each of two tools that fill a table can be told its own fault:
///
/// ```
/// use cudlomer::{Job, Refused, Set};
///
/// let measured = Job { chain: 1, job: 1, least: 8, most: 7, ..Job::NONE };
/// let at_fault = match Set::of(&[measured]) {
///     Err(Refused::PRIORITY_OUT_OF_LIMITS) => "priorities",
///     Err(Refused::LEAST_OR_MOST_OUT_OF_LIMITS | Refused::LEAST_ABOVE_MOST) => "running times",
///     _ => "none",
/// };
/// assert_eq!(at_fault, "running times");
/// ```
#[derive(Clone, Copy, Debug, PartialEq, Eq)]
pub struct Refused(pub u8);

/// The constants of the refusals, each by its name, number and reason.
macro_rules! named {
    ($($name:ident = $number:literal, $reason:literal;)*) => {
        impl Refused {
            $(#[doc = $reason]
            pub const $name: Refused = Refused($number);)*
        }
    };
}

named! {
    TEXT_TOO_LONG = 1, "The text is longer than 4,096 bytes.";
    NOT_HEADER = 2, "The first line is not the header.";
    MALFORMED_LINE = 3, "A line is not seven decimal numbers with single commas.";
    TOO_MANY_RECORDS = 4, "There are more than 64 records.";
    OUT_OF_ORDER = 5, "A chain or job is not next in order.";
    OUT_OF_LIMITS = 6, "A chain number, release or deadline is beyond its limit.";
    NO_RECORD = 7, "There is no record.";
    RUNNING_TIMES = 8, "The running times are not one for each job, from its least to its most.";
    SHORT_BUFFER = 9, "The buffer is too short.";
    UNKNOWN_ALGORITHM = 10, "The algorithm is not 1, 2 or 3.";
    IMPOSSIBLE_STATE = 11, "The state cannot be.";
    PRIORITY_OUT_OF_LIMITS = 12, "A priority is beyond 255.";
    LEAST_OR_MOST_OUT_OF_LIMITS = 13, "A least or a most is not from 1 to 1,000,000.";
    LEAST_ABOVE_MOST = 14, "A least is above its most.";
    MALFORMED_RECORDING = 15, "A recording's header, line or field is wrong, or a row is out of order.";
    TOO_MANY_ROWS = 16, "A recording has more than 256 rows.";
}

impl fmt::Display for Refused {
    fn fmt(&self, f: &mut fmt::Formatter) -> fmt::Result {
        write!(f, "refused with {}", self.0)
    }
}

impl core::error::Error for Refused {}
