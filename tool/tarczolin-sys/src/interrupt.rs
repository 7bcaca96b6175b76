//! Was the program asked to stop by Ctrl-C? A first time it is only noted, so that what was found so far can be told; a second
//! time ends the program at once.
use std::sync::atomic::{AtomicBool, Ordering};

static ASKED: AtomicBool = AtomicBool::new(false);

const INTERRUPT: i32 = 2;
/// `SIG_DFL`: what a signal does by default.
const DEFAULT: usize = 0;

extern "C" {
    fn signal(number: i32, handler: usize) -> usize;
}

extern "C" fn note(number: i32) {
    ASKED.store(true, Ordering::Relaxed);
    // safe: signal may be called from a handler, and the default needs no function of ours
    unsafe { signal(number, DEFAULT) };
}

/// From now on the first Ctrl-C is noted.
pub fn note_interrupts() {
    let handler: extern "C" fn(i32) = note;
    // safe: the handler only stores a flag and calls signal
    unsafe { signal(INTERRUPT, handler as usize) };
}

/// Was there one since?
pub fn was_interrupted() -> bool {
    ASKED.load(Ordering::Relaxed)
}
