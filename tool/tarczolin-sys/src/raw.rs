//! The calls as `include/tarczolin.h` declares them.

extern "C" {
    pub fn tarczolin_check(file: *const u8, file_len: usize) -> u64;
    pub fn tarczolin_graph(
        file: *const u8,
        file_len: usize,
        schedule: *const u8,
        schedule_len: usize,
        out: *mut u8,
        out_len: usize,
    ) -> u64;
    pub fn tarczolin_class(file: *const u8, file_len: usize, schedule: *const u8, schedule_len: usize) -> u64;
    pub fn tarczolin_judge(
        file: *const u8,
        file_len: usize,
        graph: *const u8,
        graph_len: usize,
        out: *mut u8,
        out_len: usize,
    ) -> u64;
    pub fn tarczolin_start(file: *const u8, file_len: usize, out: *mut u8, out_len: usize) -> u64;
    pub fn tarczolin_continue(
        file: *const u8,
        file_len: usize,
        schedule: *const u8,
        schedule_len: usize,
        out: *mut u8,
        out_len: usize,
    ) -> u64;
    pub fn tarczolin_violation(file: *const u8, file_len: usize, out: *mut u8, out_len: usize) -> u64;
    pub fn tarczolin_count(file: *const u8, file_len: usize, listed: *mut u64, failing: *mut u64) -> u64;
    pub fn tarczolin_count_with(
        file: *const u8,
        file_len: usize,
        listed: *mut u64,
        failing: *mut u64,
        scratch: *mut u64,
        scratch_len: usize,
    ) -> u64;
    pub fn tarczolin_violation_with(
        file: *const u8,
        file_len: usize,
        out: *mut u8,
        out_len: usize,
        scratch: *mut u64,
        scratch_len: usize,
    ) -> u64;
    pub fn tarczolin_kth(
        file: *const u8,
        file_len: usize,
        k: u64,
        out: *mut u8,
        out_len: usize,
        scratch: *mut u64,
        scratch_len: usize,
    ) -> u64;
    pub fn tarczolin_rank(
        file: *const u8,
        file_len: usize,
        schedule: *const u8,
        schedule_len: usize,
        rank: *mut u64,
        scratch: *mut u64,
        scratch_len: usize,
    ) -> u64;
    pub fn tarczolin_rows(file: *const u8, file_len: usize, out: *mut u8, out_len: usize) -> u64;
    pub fn tarczolin_rows_after(
        file: *const u8,
        file_len: usize,
        schedule: *const u8,
        schedule_len: usize,
        out: *mut u8,
        out_len: usize,
    ) -> u64;
    pub fn tarczolin_outcomes(
        file: *const u8,
        file_len: usize,
        from: u64,
        out: *mut u8,
        out_len: usize,
        scratch: *mut u64,
        scratch_len: usize,
    ) -> u64;
    pub fn tarczolin_covers(
        first: *const u8,
        first_len: usize,
        second: *const u8,
        second_len: usize,
        out: *mut u8,
        out_len: usize,
    ) -> u64;
    pub fn tarczolin_covers_with(
        first: *const u8,
        first_len: usize,
        second: *const u8,
        second_len: usize,
        out: *mut u8,
        out_len: usize,
        scratch: *mut u64,
        scratch_len: usize,
    ) -> u64;
    pub fn tarczolin_force(file: *const u8, file_len: usize, set: u8) -> u64;
    pub fn tarczolin_force_with(file: *const u8, file_len: usize, set: u8, scratch: *mut u64, scratch_len: usize) -> u64;
}
