//! Work that nobody waits for.

/// `PRIO_PROCESS`, which on Linux means one thread, and 0 the one that calls.
const OF_ONE: i32 = 0;
const THIS: u32 = 0;
/// Behind everybody else.
const LAST: i32 = 19;

extern "C" {
    fn setpriority(which: i32, who: u32, priority: i32) -> i32;
}

/// From now on the thread that calls this works where no other has to wait for it.
pub fn only_when_idle() {
    // safe: the call only changes a number of the thread; where it cannot the thread goes on as it is
    unsafe { setpriority(OF_ONE, THIS, LAST) };
}
