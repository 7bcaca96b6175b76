//! Four callers on one explorer: the calls on the records that a host lends, made safe.
//!
//! The caller served last goes into each call and comes out of it.
use crate::{Answer, Caller, Served};

extern "C" {
    fn tarczolin_open(
        callers: *mut Caller,
        callers_len: usize,
        last: *mut u64,
        caller: usize,
        file: *const u8,
        file_len: usize,
    ) -> u64;
    fn tarczolin_ask(callers: *mut Caller, callers_len: usize, last: *mut u64, caller: usize) -> u64;
    fn tarczolin_serve(callers: *mut Caller, callers_len: usize, last: *mut u64, out: *mut u8, out_len: usize) -> u64;
    fn tarczolin_close(callers: *mut Caller, callers_len: usize, last: *mut u64, caller: usize) -> u64;
    fn tarczolin_set(
        callers: *mut Caller,
        callers_len: usize,
        last: *mut u64,
        caller: usize,
        name: *const u8,
        name_len: usize,
    ) -> u64;
    fn tarczolin_return(
        callers: *mut Caller,
        callers_len: usize,
        last: *mut u64,
        caller: usize,
        name: *const u8,
        name_len: usize,
    ) -> u64;
    fn tarczolin_forget(
        callers: *mut Caller,
        callers_len: usize,
        last: *mut u64,
        caller: usize,
        name: *const u8,
        name_len: usize,
    ) -> u64;
}

/// What goes into each call and comes out of it.
pub struct Shared<'a> {
    pub callers: &'a mut [Caller],
    pub last: &'a mut u64,
}

/// Opens for a caller with this file: it stands before the first schedule.
pub fn open(shared: Shared, caller: usize, file: &[u8]) -> Answer {
    let Shared { callers, last } = shared;
    // safe: the call reads only the bytes of the file and reads and writes only the records and the number
    Answer::of_word(unsafe { tarczolin_open(callers.as_mut_ptr(), callers.len(), last, caller, file.as_ptr(), file.len()) })
}

/// Asks for a caller: one of the next serves is for it.
pub fn ask(shared: Shared, caller: usize) -> Answer {
    let Shared { callers, last } = shared;
    // safe: the call reads and writes only the records and the number
    Answer::of_word(unsafe { tarczolin_ask(callers.as_mut_ptr(), callers.len(), last, caller) })
}

/// Serves the next asking caller after the last one served: one listed schedule, in front of the output, or no more.
pub fn serve(shared: Shared, out: &mut [u8]) -> Served {
    let Shared { callers, last } = shared;
    // safe: the call reads and writes only the records, the number and bytes of the output
    Served::of_word(unsafe { tarczolin_serve(callers.as_mut_ptr(), callers.len(), last, out.as_mut_ptr(), out.len()) })
}

/// Closes for a caller: its record is empty.
pub fn close(shared: Shared, caller: usize) -> Answer {
    let Shared { callers, last } = shared;
    // safe: the call reads and writes only the records and the number
    Answer::of_word(unsafe { tarczolin_close(callers.as_mut_ptr(), callers.len(), last, caller) })
}

/// Sets a mark under this name: the last schedule handed to the caller, or the beginning if there is none.
pub fn set(shared: Shared, caller: usize, name: &[u8]) -> Answer {
    let Shared { callers, last } = shared;
    // safe: the call reads only the bytes of the name and reads and writes only the records and the number
    Answer::of_word(unsafe { tarczolin_set(callers.as_mut_ptr(), callers.len(), last, caller, name.as_ptr(), name.len()) })
}

/// Returns to the mark of this name: the caller's serves go on behind it.
pub fn return_to(shared: Shared, caller: usize, name: &[u8]) -> Answer {
    let Shared { callers, last } = shared;
    // safe: the call reads only the bytes of the name and reads and writes only the records and the number
    Answer::of_word(unsafe { tarczolin_return(callers.as_mut_ptr(), callers.len(), last, caller, name.as_ptr(), name.len()) })
}

/// Forgets the mark of this name.
pub fn forget(shared: Shared, caller: usize, name: &[u8]) -> Answer {
    let Shared { callers, last } = shared;
    // safe: the call reads only the bytes of the name and reads and writes only the records and the number
    Answer::of_word(unsafe { tarczolin_forget(callers.as_mut_ptr(), callers.len(), last, caller, name.as_ptr(), name.len()) })
}
