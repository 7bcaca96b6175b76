//! One memory model against another: the calls made safe.
use crate::{Answer, Covers};

/// The byte that names sequential consistency, and the one that names total store order.
pub const SC: u8 = 0;
pub const TSO: u8 = 1;

extern "C" {
    fn tarczolin_robust(file: *const u8, file_len: usize, out: *mut u8, out_len: usize) -> u64;
    fn tarczolin_covers_models(
        first_model: u8,
        first: *const u8,
        first_len: usize,
        second_model: u8,
        second: *const u8,
        second_len: usize,
        out: *mut u8,
        out_len: usize,
        scratch: *mut u64,
        scratch_len: usize,
    ) -> u64;
}

/// Is the program robust: is every graph of total store order consistent? None where it is; else the first listed schedule there whose
/// graph is not, in front of the output, which needs 48 bytes.
pub fn robust(file: &[u8], out: &mut [u8]) -> Answer {
    // safe: the call reads only the bytes of the first slice and writes only bytes of the second
    Answer::of_word(unsafe { tarczolin_robust(file.as_ptr(), file.len(), out.as_mut_ptr(), out.len()) })
}

/// A program, and the byte of the model that it runs under.
#[derive(Clone, Copy)]
pub struct Under<'a> {
    pub model: u8,
    pub file: &'a [u8],
}

/// Is each outcome of the second program under its model one of the first under its own? Else the first listed schedule of the second, in its
/// model, with an outcome that the first lacks, in front of the output, which needs 48 bytes. The scratch is as that of `covers_with`.
pub fn covers_models(first: Under, second: Under, out: &mut [u8], scratch: &mut [u64]) -> Covers {
    let [one, other] = [first, second].map(|under| (under.model, under.file.as_ptr(), under.file.len()));
    let (bytes, room, lent, words) = (out.as_mut_ptr(), out.len(), scratch.as_mut_ptr(), scratch.len());
    // safe: the call reads only the bytes of the two files and writes only bytes of the output and words of the scratch
    Covers::of_word(unsafe { tarczolin_covers_models(one.0, one.1, one.2, other.0, other.1, other.2, bytes, room, lent, words) })
}
