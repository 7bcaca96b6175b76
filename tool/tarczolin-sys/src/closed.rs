//! Were standard input and standard output open when the program began? Rust opens `/dev/null` in the place of a closed one before
//! `main`, and from then on nobody can tell; so it is asked for before that, when the program is loaded.
use std::sync::atomic::{AtomicBool, Ordering};

/// By descriptor: standard input, standard output.
static CLOSED: [AtomicBool; 2] = [const { AtomicBool::new(false) }; 2];

const STANDARD_INPUT: usize = 0;
const STANDARD_OUTPUT: usize = 1;
/// `F_GETFD`: answers -1 for a descriptor that is not open.
const GET_FLAGS: i32 = 1;

extern "C" {
    fn fcntl(descriptor: i32, command: i32, ...) -> i32;
}

extern "C" fn look() {
    for (descriptor, closed) in (0..).zip(&CLOSED) {
        // safe: the call only asks for a number of the process
        let open = unsafe { fcntl(descriptor, GET_FLAGS) } != -1;
        closed.store(!open, Ordering::Relaxed);
    }
}

/// The loader calls the functions of this section before `main`.
#[used]
#[link_section = ".init_array"]
static LOOK: extern "C" fn() = look;

/// Was standard input closed when the program began?
pub fn standard_input_was_closed() -> bool {
    CLOSED[STANDARD_INPUT].load(Ordering::Relaxed)
}

/// Was standard output closed when the program began?
pub fn standard_output_was_closed() -> bool {
    CLOSED[STANDARD_OUTPUT].load(Ordering::Relaxed)
}
