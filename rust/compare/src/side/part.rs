//! The part's functions over slices. Each reads and writes within the slices that it is handed, which is why the calls are sound.

use super::{Answer, Pair, Side};
use cudlomer::ffi;

fn answer(value: i64) -> Answer {
    if value < 0 {
        Err(value.wrapping_neg())
    } else {
        Ok(value)
    }
}

type ByAlgorithm = unsafe extern "C" fn(*const u64, usize, u64, *mut u64, usize) -> i64;

fn by_algorithm(function: ByAlgorithm, jobs: &[u64], algorithm: u64, out: &mut [u64]) -> Answer {
    // It reads within the first slice and writes within the second.
    answer(unsafe { function(jobs.as_ptr(), jobs.len(), algorithm, out.as_mut_ptr(), out.len()) })
}

type OnTimes<T> = unsafe extern "C" fn(*const u64, usize, *const u64, usize, *mut T, usize) -> i64;

fn on_times<T>(function: OnTimes<T>, jobs: &[u64], times: &[u64], out: &mut [T]) -> Answer {
    // It reads within the first two slices and writes within the third.
    answer(unsafe { function(jobs.as_ptr(), jobs.len(), times.as_ptr(), times.len(), out.as_mut_ptr(), out.len()) })
}

type OnText = unsafe extern "C" fn(*const u8, usize, *mut u8, usize) -> i64;

fn on_text(function: OnText, text: &[u8], out: &mut [u8]) -> Answer {
    // It reads within the first slice and writes within the second.
    answer(unsafe { function(text.as_ptr(), text.len(), out.as_mut_ptr(), out.len()) })
}

fn set_compare(jobs: &[u64], texts: Pair, out: &mut [u64]) -> Answer {
    let [(first, first_length), (second, second_length)] = texts.map(|text| (text.as_ptr(), text.len()));
    let (lent, room) = (out.as_mut_ptr(), out.len());
    // It reads within the first three slices and writes within the fourth.
    answer(unsafe { ffi::cudlomer_set_compare(jobs.as_ptr(), jobs.len(), first, first_length, second, second_length, lent, room) })
}

pub const PART: Side = Side {
    bounds: |text, out| on_text(ffi::cudlomer_bounds, text, out),
    trace: |text, out| on_text(ffi::cudlomer_trace, text, out),
    // It reads within the slice.
    verdict: |text, algorithm| answer(unsafe { ffi::cudlomer_verdict(text.as_ptr(), text.len(), algorithm) }),
    // It reads within the slice.
    rounds: |text| answer(unsafe { ffi::cudlomer_rounds(text.as_ptr(), text.len()) }),
    // It reads within the first slice and writes within the second.
    set_read: |text, jobs| answer(unsafe { ffi::cudlomer_set_read(text.as_ptr(), text.len(), jobs.as_mut_ptr(), jobs.len()) }),
    // It reads within the first slice and writes within the second.
    set_write: |jobs, out| answer(unsafe { ffi::cudlomer_set_write(jobs.as_ptr(), jobs.len(), out.as_mut_ptr(), out.len()) }),
    set_bounds: |jobs, algorithm, out| by_algorithm(ffi::cudlomer_set_bounds, jobs, algorithm, out),
    set_blocks: |jobs, algorithm, out| by_algorithm(ffi::cudlomer_set_blocks, jobs, algorithm, out),
    // It reads within the slice.
    set_verdict: |jobs, algorithm| answer(unsafe { ffi::cudlomer_set_verdict(jobs.as_ptr(), jobs.len(), algorithm) }),
    // It reads within the slice.
    set_rounds: |jobs| answer(unsafe { ffi::cudlomer_set_rounds(jobs.as_ptr(), jobs.len()) }),
    set_admit: |jobs, count, chain, algorithm| {
        // It reads within both slices and writes within the first.
        answer(unsafe { ffi::cudlomer_set_admit(jobs.as_mut_ptr(), jobs.len(), count, chain.as_ptr(), chain.len(), algorithm) })
    },
    set_tick: |jobs, times, state| on_times(ffi::cudlomer_set_tick, jobs, times, state),
    set_run: |jobs, times, out| on_times(ffi::cudlomer_set_run, jobs, times, out),
    set_trace: |jobs, times, out| on_times(ffi::cudlomer_set_trace, jobs, times, out),
    // It reads within both slices.
    set_steps: |jobs, times| answer(unsafe { ffi::cudlomer_set_steps(jobs.as_ptr(), jobs.len(), times.as_ptr(), times.len()) }),
    set_waveform: |jobs, times, out| on_times(ffi::cudlomer_set_waveform, jobs, times, out),
    set_compare,
};
