//! The functions on the text of a table.

use crate::{answer, counted, ffi, Refused, Verdict};

/// Writes the bounds text of a table into a buffer, and answers how many bytes it takes.
pub fn bounds(text: &[u8], out: &mut [u8]) -> Result<usize, Refused> {
    // The function reads and writes within the two slices.
    counted(unsafe { ffi::cudlomer_bounds(text.as_ptr(), text.len(), out.as_mut_ptr(), out.len()) })
}

/// Writes the trace text of a table into a buffer, and answers how many bytes it takes.
pub fn trace(text: &[u8], out: &mut [u8]) -> Result<usize, Refused> {
    // The function reads and writes within the two slices.
    counted(unsafe { ffi::cudlomer_trace(text.as_ptr(), text.len(), out.as_mut_ptr(), out.len()) })
}

/// Whether all deadlines of a table are met, by algorithm 1 ERT, 2 CJA or 3 ITR.
pub fn verdict(text: &[u8], algorithm: u8) -> Result<Verdict, Refused> {
    // The function reads within the slice.
    answer(unsafe { ffi::cudlomer_verdict(text.as_ptr(), text.len(), algorithm) }).map(Verdict::of)
}

/// How many rounds ITR takes.
pub fn rounds(text: &[u8]) -> Result<u64, Refused> {
    // The function reads within the slice.
    answer(unsafe { ffi::cudlomer_rounds(text.as_ptr(), text.len()) })
}
