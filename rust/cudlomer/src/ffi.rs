//! The functions as `cudlomer.h` declares them, for a caller that lends plain numbers. Each takes anything, and reads and writes only within the
//! ranges that it is handed, of which one that is written must not overlap another.

extern "C" {
    pub fn cudlomer_bounds(text: *const u8, text_length: usize, out: *mut u8, out_length: usize) -> i64;
    pub fn cudlomer_trace(text: *const u8, text_length: usize, out: *mut u8, out_length: usize) -> i64;
    pub fn cudlomer_verdict(text: *const u8, text_length: usize, algorithm: u8) -> i64;
    pub fn cudlomer_rounds(text: *const u8, text_length: usize) -> i64;
    pub fn cudlomer_set_read(text: *const u8, text_length: usize, jobs: *mut u64, jobs_length: usize) -> i64;
    pub fn cudlomer_set_write(jobs: *const u64, jobs_length: usize, out: *mut u8, out_length: usize) -> i64;
    pub fn cudlomer_set_bounds(jobs: *const u64, jobs_length: usize, algorithm: u64, out: *mut u64, out_length: usize) -> i64;
    pub fn cudlomer_set_blocks(jobs: *const u64, jobs_length: usize, algorithm: u64, out: *mut u64, out_length: usize) -> i64;
    pub fn cudlomer_set_verdict(jobs: *const u64, jobs_length: usize, algorithm: u64) -> i64;
    pub fn cudlomer_set_rounds(jobs: *const u64, jobs_length: usize) -> i64;
    pub fn cudlomer_set_admit(jobs: *mut u64, jobs_length: usize, count: u64, chain: *const u64, chain_length: usize, algorithm: u64) -> i64;
    pub fn cudlomer_set_tick(
        jobs: *const u64,
        jobs_length: usize,
        times: *const u64,
        times_length: usize,
        state: *mut u64,
        state_length: usize,
    ) -> i64;
    pub fn cudlomer_set_run(jobs: *const u64, jobs_length: usize, times: *const u64, times_length: usize, out: *mut u64, out_length: usize) -> i64;
    pub fn cudlomer_set_trace(jobs: *const u64, jobs_length: usize, times: *const u64, times_length: usize, out: *mut u64, out_length: usize) -> i64;
    pub fn cudlomer_set_steps(jobs: *const u64, jobs_length: usize, times: *const u64, times_length: usize) -> i64;
    pub fn cudlomer_set_waveform(
        jobs: *const u64,
        jobs_length: usize,
        times: *const u64,
        times_length: usize,
        out: *mut u8,
        out_length: usize,
    ) -> i64;
    pub fn cudlomer_set_compare(
        jobs: *const u64,
        jobs_length: usize,
        first: *const u8,
        first_length: usize,
        second: *const u8,
        second_length: usize,
        out: *mut u64,
        out_length: usize,
    ) -> i64;
}
