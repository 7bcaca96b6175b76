//! How much stack a call uses: it runs on a thread whose stack was painted before, and after it the lowest byte that lost its paint is found.
use std::ffi::{c_int, c_ulong, c_void};
use std::hint::black_box;

/// The stack's size in words, and what it is painted with.
const WORDS: usize = 1 << 17;
const PAINT: u64 = 0x5ca1_ab1e_0fc0_ffee;

/// Room for `pthread_attr_t`, which has 56 bytes on this kind of machine.
#[repr(C, align(16))]
struct Attributes([u8; 128]);

extern "C" {
    fn pthread_attr_init(attributes: *mut Attributes) -> c_int;
    fn pthread_attr_setstack(attributes: *mut Attributes, lowest: *mut c_void, bytes: usize) -> c_int;
    fn pthread_attr_destroy(attributes: *mut Attributes) -> c_int;
    fn pthread_create(
        thread: *mut c_ulong,
        attributes: *const Attributes,
        begin: extern "C" fn(*mut c_void) -> *mut c_void,
        given: *mut c_void,
    ) -> c_int;
    fn pthread_join(thread: c_ulong, answer: *mut *mut c_void) -> c_int;
}

/// What the thread is given: the call, and where the stack stands when it is made.
struct Given<'a> {
    call: &'a mut dyn FnMut(),
    from: usize,
}

extern "C" fn begin(given: *mut c_void) -> *mut c_void {
    // safe: it is the address of a `Given` that `stack_used` holds until the thread is joined
    let given = unsafe { &mut *given.cast::<Given>() };
    let here = 0u8;
    given.from = black_box(&here) as *const u8 as usize;
    (given.call)();
    std::ptr::null_mut()
}

/// A stack to be used again and again.
pub struct Stack(Vec<u128>);

impl Default for Stack {
    fn default() -> Stack {
        Stack(vec![0; WORDS / 2])
    }
}

impl Stack {
    /// So many bytes of stack the call needs, its own frame and all below it; no more than a frame of the caller's too many.
    pub fn used(&mut self, call: &mut dyn FnMut()) -> usize {
        self.0.fill((PAINT as u128) << 64 | PAINT as u128);
        let (lowest, bytes) = (self.0.as_mut_ptr(), std::mem::size_of_val(&self.0[..]));
        let mut given = Given { call, from: 0 };
        let mut attributes = Attributes([0; 128]);
        let mut thread = 0;
        // safe: the stack and what is given outlive the thread, which is joined here; nobody else looks at either meanwhile
        unsafe {
            assert_eq!(pthread_attr_init(&mut attributes), 0);
            assert_eq!(pthread_attr_setstack(&mut attributes, lowest.cast(), bytes), 0);
            assert_eq!(pthread_create(&mut thread, &attributes, begin, (&raw mut given).cast()), 0);
            assert_eq!(pthread_join(thread, std::ptr::null_mut()), 0);
            pthread_attr_destroy(&mut attributes);
        }
        let kept = self.0.iter().take_while(|two| **two == (PAINT as u128) << 64 | PAINT as u128).count();
        given.from - (lowest as usize + 16 * kept)
    }
}
