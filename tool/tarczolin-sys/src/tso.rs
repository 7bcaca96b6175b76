//! The listing under total store order, by the x86-TSO machine: the calls made safe.
//!
//! A step byte t does thread t's next access, 10 + t (hexadecimal) moves its oldest pending store to memory. A file of more than
//! 16 accesses is refused by 41 at place 0, right behind the program's own refusals.
use crate::{Answer, VALUES};

/// A schedule needs an output of so many bytes.
pub const SCHEDULE: usize = 48;
/// A listed schedule as a row: the number of steps, 1 where it fails and else 0, the steps, zeros behind them.
pub const ROW: usize = 2 + SCHEDULE;
/// An outcome as a row: the eight final values, then the row of the first listed schedule that has it.
pub const OUTCOME: usize = VALUES + ROW;

extern "C" {
    fn tarczolin_tso_graph(
        file: *const u8,
        file_len: usize,
        schedule: *const u8,
        schedule_len: usize,
        out: *mut u8,
        out_len: usize,
    ) -> u64;
    fn tarczolin_tso_class(file: *const u8, file_len: usize, schedule: *const u8, schedule_len: usize) -> u64;
    fn tarczolin_tso_start(file: *const u8, file_len: usize, out: *mut u8, out_len: usize) -> u64;
    fn tarczolin_tso_continue(
        file: *const u8,
        file_len: usize,
        schedule: *const u8,
        schedule_len: usize,
        out: *mut u8,
        out_len: usize,
    ) -> u64;
    fn tarczolin_tso_violation(file: *const u8, file_len: usize, out: *mut u8, out_len: usize) -> u64;
    fn tarczolin_tso_count(file: *const u8, file_len: usize, listed: *mut u64, failing: *mut u64) -> u64;
    pub(crate) fn tarczolin_tso_count_with(
        file: *const u8,
        file_len: usize,
        listed: *mut u64,
        failing: *mut u64,
        scratch: *mut u64,
        scratch_len: usize,
    ) -> u64;
    pub(crate) fn tarczolin_tso_violation_with(
        file: *const u8,
        file_len: usize,
        out: *mut u8,
        out_len: usize,
        scratch: *mut u64,
        scratch_len: usize,
    ) -> u64;
    fn tarczolin_tso_rows(file: *const u8, file_len: usize, out: *mut u8, out_len: usize) -> u64;
    pub(crate) fn tarczolin_tso_outcomes(
        file: *const u8,
        file_len: usize,
        from: u64,
        out: *mut u8,
        out_len: usize,
        scratch: *mut u64,
        scratch_len: usize,
    ) -> u64;
    fn tarczolin_tso_rows_after(
        file: *const u8,
        file_len: usize,
        schedule: *const u8,
        schedule_len: usize,
        out: *mut u8,
        out_len: usize,
    ) -> u64;
}

/// The text of the graph of a full schedule, in front of the output.
pub fn graph(file: &[u8], schedule: &[u8], out: &mut [u8]) -> Answer {
    // safe: the call reads only the bytes of the first two slices and writes only bytes of the third
    Answer::of_word(unsafe {
        tarczolin_tso_graph(file.as_ptr(), file.len(), schedule.as_ptr(), schedule.len(), out.as_mut_ptr(), out.len())
    })
}

/// How many different graphs are alike to that of this full schedule, listed or not, itself counted.
pub fn class(file: &[u8], schedule: &[u8]) -> Answer {
    // safe: the call only reads, and only the bytes of the two slices
    Answer::of_word(unsafe { tarczolin_tso_class(file.as_ptr(), file.len(), schedule.as_ptr(), schedule.len()) })
}

/// The least listed schedule, in front of the output.
pub fn start(file: &[u8], out: &mut [u8]) -> Answer {
    // safe: the call reads only the bytes of the first slice and writes only bytes of the second
    Answer::of_word(unsafe { tarczolin_tso_start(file.as_ptr(), file.len(), out.as_mut_ptr(), out.len()) })
}

/// The least listed schedule after this full one, listed or not, in front of the output.
pub fn continue_from(file: &[u8], schedule: &[u8], out: &mut [u8]) -> Answer {
    // safe: the call reads only the bytes of the first two slices and writes only bytes of the third
    Answer::of_word(unsafe {
        tarczolin_tso_continue(file.as_ptr(), file.len(), schedule.as_ptr(), schedule.len(), out.as_mut_ptr(), out.len())
    })
}

/// The first listed schedule that fails, in front of the output.
pub fn violation(file: &[u8], out: &mut [u8]) -> Answer {
    // safe: the call reads only the bytes of the first slice and writes only bytes of the second
    Answer::of_word(unsafe { tarczolin_tso_violation(file.as_ptr(), file.len(), out.as_mut_ptr(), out.len()) })
}

/// How many schedules are listed, and how many of these fail, both modulo 2^64.
pub fn count(file: &[u8], listed: &mut u64, failing: &mut u64) -> Answer {
    // safe: the call reads only the bytes of the slice and writes only the two words
    Answer::of_word(unsafe { tarczolin_tso_count(file.as_ptr(), file.len(), listed, failing) })
}

/// As `count`, by states: what was counted behind a state is remembered in the scratch, which may have any length and hold anything. An
/// answer leaves zeros in it, a refusal leaves it as it was.
pub fn count_with(file: &[u8], listed: &mut u64, failing: &mut u64, scratch: &mut [u64]) -> Answer {
    // safe: the call reads only the bytes of the first slice and writes only the two words and words of the second
    Answer::of_word(unsafe {
        tarczolin_tso_count_with(file.as_ptr(), file.len(), listed, failing, scratch.as_mut_ptr(), scratch.len())
    })
}

/// As `violation`, by states: behind which nothing fails is remembered in the scratch, as `count_with` does.
pub fn violation_with(file: &[u8], out: &mut [u8], scratch: &mut [u64]) -> Answer {
    // safe: the call reads only the bytes of the first slice and writes only bytes of the second and words of the third
    Answer::of_word(unsafe {
        tarczolin_tso_violation_with(file.as_ptr(), file.len(), out.as_mut_ptr(), out.len(), scratch.as_mut_ptr(), scratch.len())
    })
}

/// The first listed schedules as rows, as many as the output has room for; the answer carries the number of rows.
pub fn rows(file: &[u8], out: &mut [u8]) -> Answer {
    // safe: the call reads only the bytes of the first slice and writes only bytes of the second
    Answer::of_word(unsafe { tarczolin_tso_rows(file.as_ptr(), file.len(), out.as_mut_ptr(), out.len()) })
}

/// The same for the listed schedules after this one, which need not be listed nor full.
pub fn rows_after(file: &[u8], schedule: &[u8], out: &mut [u8]) -> Answer {
    // safe: the call reads only the bytes of the first two slices and writes only bytes of the third
    Answer::of_word(unsafe {
        tarczolin_tso_rows_after(file.as_ptr(), file.len(), schedule.as_ptr(), schedule.len(), out.as_mut_ptr(), out.len())
    })
}

/// The outcomes, each once with the first listed schedule that has it and in the order of these, as rows from number `from` on, as
/// `crate::outcomes` gives them.
pub fn outcomes(file: &[u8], from: u64, out: &mut [u8], scratch: &mut [u64]) -> Answer {
    // safe: the call reads only the bytes of the first slice and writes only bytes of the second and words of the third
    Answer::of_word(unsafe {
        tarczolin_tso_outcomes(file.as_ptr(), file.len(), from, out.as_mut_ptr(), out.len(), scratch.as_mut_ptr(), scratch.len())
    })
}
