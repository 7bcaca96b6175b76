//! The calls of the static library, made safe.
//!
//! What each call answers, for all inputs, is said in `include/tarczolin.h` and proved; here each only gets slices in place
//! of pointers and lengths. No call keeps anything for the next, so all may be made from many threads at once.
pub mod across;
mod answer;
mod caller;
mod closed;
mod covers;
mod idle;
mod interrupt;
mod raw;
mod scratch;
mod served;
pub mod tso;
pub mod users;

pub use answer::Answer;
pub use caller::{Caller, Mark, FILE, MARKS, NAME};
pub use closed::{standard_input_was_closed, standard_output_was_closed};
pub use covers::Covers;
pub use idle::only_when_idle;
pub use interrupt::{note_interrupts, was_interrupted};
pub use scratch::{Scratch, Seen};
pub use served::Served;

/// A schedule needs an output of so many bytes.
pub const SCHEDULE: usize = 24;
/// A listed schedule as a row: the number of steps, 1 where it fails and else 0, the steps, zeros behind them.
pub const ROW: usize = 2 + SCHEDULE;
/// So many bytes of final values stand in front of a row of `outcomes`: eight values, each most significant byte first.
pub const VALUES: usize = 32;
/// An outcome as a row: the eight final values, then the row of the first listed schedule that has it.
pub const OUTCOME: usize = VALUES + ROW;
/// A graph text needs an output of so many bytes.
pub const GRAPH: usize = 512;

/// Is this an accepted program file?
pub fn check(file: &[u8]) -> Answer {
    Answer::of_word(check_word(file))
}

/// The answer word of `check`, as it comes.
pub fn check_word(file: &[u8]) -> u64 {
    // safe: the call only reads, and only the bytes of the slice
    unsafe { raw::tarczolin_check(file.as_ptr(), file.len()) }
}

/// The text of the graph of a full schedule, in front of the output.
pub fn graph(file: &[u8], schedule: &[u8], out: &mut [u8]) -> Answer {
    // safe: the call reads only the bytes of the first two slices and writes only bytes of the third
    Answer::of_word(unsafe {
        raw::tarczolin_graph(file.as_ptr(), file.len(), schedule.as_ptr(), schedule.len(), out.as_mut_ptr(), out.len())
    })
}

/// How many different graphs are alike to that of this full schedule, listed or not, itself counted.
pub fn class(file: &[u8], schedule: &[u8]) -> Answer {
    // safe: the call only reads, and only the bytes of the two slices
    Answer::of_word(unsafe { raw::tarczolin_class(file.as_ptr(), file.len(), schedule.as_ptr(), schedule.len()) })
}

/// Is this graph consistent? Then the least schedule that makes it, in front of the output.
pub fn judge(file: &[u8], graph: &[u8], out: &mut [u8]) -> Answer {
    // safe: the call reads only the bytes of the first two slices and writes only bytes of the third
    Answer::of_word(unsafe {
        raw::tarczolin_judge(file.as_ptr(), file.len(), graph.as_ptr(), graph.len(), out.as_mut_ptr(), out.len())
    })
}

/// The least listed schedule, in front of the output.
pub fn start(file: &[u8], out: &mut [u8]) -> Answer {
    // safe: the call reads only the bytes of the first slice and writes only bytes of the second
    Answer::of_word(unsafe { raw::tarczolin_start(file.as_ptr(), file.len(), out.as_mut_ptr(), out.len()) })
}

/// The least listed schedule after this full one, listed or not, in front of the output.
pub fn continue_from(file: &[u8], schedule: &[u8], out: &mut [u8]) -> Answer {
    // safe: the call reads only the bytes of the first two slices and writes only bytes of the third
    Answer::of_word(unsafe {
        raw::tarczolin_continue(file.as_ptr(), file.len(), schedule.as_ptr(), schedule.len(), out.as_mut_ptr(), out.len())
    })
}

/// The first listed schedule that fails, in front of the output.
pub fn violation(file: &[u8], out: &mut [u8]) -> Answer {
    // safe: the call reads only the bytes of the first slice and writes only bytes of the second
    Answer::of_word(unsafe { raw::tarczolin_violation(file.as_ptr(), file.len(), out.as_mut_ptr(), out.len()) })
}

/// How many schedules are listed, and how many of these fail.
pub fn count(file: &[u8], listed: &mut u64, failing: &mut u64) -> Answer {
    // safe: the call reads only the bytes of the slice and writes only the two words
    Answer::of_word(unsafe { raw::tarczolin_count(file.as_ptr(), file.len(), listed, failing) })
}

/// As `count`, by states: what was counted behind a state is remembered in the scratch, which may have any length and hold anything. An
/// answer leaves zeros in it, a refusal leaves it as it was.
pub fn count_with(file: &[u8], listed: &mut u64, failing: &mut u64, scratch: &mut [u64]) -> Answer {
    // safe: the call reads only the bytes of the first slice and writes only the two words and words of the second
    Answer::of_word(unsafe {
        raw::tarczolin_count_with(file.as_ptr(), file.len(), listed, failing, scratch.as_mut_ptr(), scratch.len())
    })
}

/// As `violation`, by states: behind which nothing fails is remembered in the scratch, as `count_with` does.
pub fn violation_with(file: &[u8], out: &mut [u8], scratch: &mut [u64]) -> Answer {
    // safe: the call reads only the bytes of the first slice and writes only bytes of the second and words of the third
    Answer::of_word(unsafe {
        raw::tarczolin_violation_with(file.as_ptr(), file.len(), out.as_mut_ptr(), out.len(), scratch.as_mut_ptr(), scratch.len())
    })
}

/// The listed schedule number k, from 0, in front of the output; none exactly where the list has not so many. What is counted behind a
/// state is remembered in the scratch, as `count_with` does.
pub fn kth(file: &[u8], k: u64, out: &mut [u8], scratch: &mut [u64]) -> Answer {
    // safe: the call reads only the bytes of the first slice and writes only bytes of the second and words of the third
    Answer::of_word(unsafe {
        raw::tarczolin_kth(file.as_ptr(), file.len(), k, out.as_mut_ptr(), out.len(), scratch.as_mut_ptr(), scratch.len())
    })
}

/// How many listed schedules are smaller than this full one, listed or not. The scratch is as that of `kth`.
pub fn rank(file: &[u8], schedule: &[u8], rank: &mut u64, scratch: &mut [u64]) -> Answer {
    let (steps, length) = (schedule.as_ptr(), schedule.len());
    // safe: the call reads only the bytes of the first two slices and writes only the word and words of the third
    Answer::of_word(unsafe {
        raw::tarczolin_rank(file.as_ptr(), file.len(), steps, length, rank, scratch.as_mut_ptr(), scratch.len())
    })
}

/// The first listed schedules as rows, as many as the output has room for; the answer carries the number of rows.
pub fn rows(file: &[u8], out: &mut [u8]) -> Answer {
    // safe: the call reads only the bytes of the first slice and writes only bytes of the second
    Answer::of_word(unsafe { raw::tarczolin_rows(file.as_ptr(), file.len(), out.as_mut_ptr(), out.len()) })
}

/// The same for the listed schedules after this one, which need not be listed nor full.
pub fn rows_after(file: &[u8], schedule: &[u8], out: &mut [u8]) -> Answer {
    // safe: the call reads only the bytes of the first two slices and writes only bytes of the third
    Answer::of_word(unsafe {
        raw::tarczolin_rows_after(file.as_ptr(), file.len(), schedule.as_ptr(), schedule.len(), out.as_mut_ptr(), out.len())
    })
}

/// The outcomes, each once with the first listed schedule that has it and in the order of these, as rows from number `from` on, as many as the
/// output has room for; the answer carries the number of rows, 0 where there are no more. The output needs room for one. Outcomes and
/// states are remembered in the scratch, as `count_with` does.
pub fn outcomes(file: &[u8], from: u64, out: &mut [u8], scratch: &mut [u64]) -> Answer {
    // safe: the call reads only the bytes of the first slice and writes only bytes of the second and words of the third
    Answer::of_word(unsafe {
        raw::tarczolin_outcomes(file.as_ptr(), file.len(), from, out.as_mut_ptr(), out.len(), scratch.as_mut_ptr(), scratch.len())
    })
}

/// Does the first program cover the second? Else the first listed schedule of the second with an outcome that the first lacks,
/// in front of the output.
pub fn covers(first: &[u8], second: &[u8], out: &mut [u8]) -> Covers {
    // safe: the call reads only the bytes of the first two slices and writes only bytes of the third
    Covers::of_word(unsafe {
        raw::tarczolin_covers(first.as_ptr(), first.len(), second.as_ptr(), second.len(), out.as_mut_ptr(), out.len())
    })
}

/// As `covers`, by states: outcomes of the first program and states of both are remembered in the scratch, as `count_with` does.
pub fn covers_with(first: &[u8], second: &[u8], out: &mut [u8], scratch: &mut [u64]) -> Covers {
    let [one, other] = [first, second].map(|file| (file.as_ptr(), file.len()));
    let (lent, words) = (scratch.as_mut_ptr(), scratch.len());
    // safe: the call reads only the bytes of the first two slices and writes only bytes of the third and words of the fourth
    Covers::of_word(unsafe {
        raw::tarczolin_covers_with(one.0, one.1, other.0, other.1, out.as_mut_ptr(), out.len(), lent, words)
    })
}

/// Who can force its end, where the hostile side has the threads in the set, bit t for thread t? Answered where the hostile side can: 0
/// where it has no step before the first one, else its least first step that keeps the win, plus 1. None where the friendly side can.
pub fn force(file: &[u8], set: u8) -> Answer {
    // safe: the call only reads, and only the bytes of the slice
    Answer::of_word(unsafe { raw::tarczolin_force(file.as_ptr(), file.len(), set) })
}

/// As `force`, by states: who wins where is remembered in the scratch, as `count_with` does.
pub fn force_with(file: &[u8], set: u8, scratch: &mut [u64]) -> Answer {
    // safe: the call reads only the bytes of the first slice and writes only words of the second
    Answer::of_word(unsafe { raw::tarczolin_force_with(file.as_ptr(), file.len(), set, scratch.as_mut_ptr(), scratch.len()) })
}
