//! How deep the stack was used: a call runs on a thread whose stack is
//! filled with a pattern first, and what it left of the pattern is seen.

use std::os::raw::{c_int, c_ulong, c_void};
use std::ptr::{null_mut, write_volatile};

const SIZE: usize = 1 << 18;
const PATTERN: u8 = 0xC5;

/// More than starting and ending a thread needs of its stack.
const ROOM: usize = 1 << 14;

#[repr(C, align(4096))]
struct Stack([u8; SIZE]);

/// Room for what the system's library keeps in it, on 64 bits.
#[repr(C)]
struct Attributes([u64; 16]);

extern "C" {
    fn pthread_attr_init(attributes: *mut Attributes) -> c_int;
    fn pthread_attr_setstack(attributes: *mut Attributes, stack: *mut c_void, size: usize)
        -> c_int;
    fn pthread_create(
        thread: *mut c_ulong,
        attributes: *const Attributes,
        start: extern "C" fn(*mut c_void) -> *mut c_void,
        argument: *mut c_void,
    ) -> c_int;
    fn pthread_join(thread: c_ulong, result: *mut *mut c_void) -> c_int;
}

/// The bytes of a thread's stack that were used, the thread's own among
/// them. In steps of 8, as the processor's stack is.
pub fn used(mut job: &mut dyn FnMut()) -> usize {
    let mut stack = Box::new(Stack([PATTERN; SIZE]));
    let argument: *mut &mut dyn FnMut() = &mut job;
    unsafe { run_on(&mut stack, argument as *mut c_void) };
    let left = stack.0.iter().position(|&byte| byte != PATTERN).unwrap_or(SIZE);
    SIZE - left / 8 * 8
}

/// The stack and the job are not touched by others until the thread has
/// ended.
unsafe fn run_on(stack: &mut Stack, job: *mut c_void) {
    let mut attributes = Attributes([0; 16]);
    let mut thread = 0;
    let place = stack.0.as_mut_ptr() as *mut c_void;
    let failed = pthread_attr_init(&mut attributes) != 0
        || pthread_attr_setstack(&mut attributes, place, SIZE) != 0
        || pthread_create(&mut thread, &attributes, start, job) != 0
        || pthread_join(thread, null_mut()) != 0;
    assert!(!failed, "no thread with a stack of its own");
}

/// The job is called from below some room, so that what the system's
/// library does before and after is not taken for it.
extern "C" fn start(job: *mut c_void) -> *mut c_void {
    let mut room = [0u8; ROOM];
    unsafe { write_volatile(&mut room, [0; ROOM]) };
    let job = unsafe { &mut *(job as *mut &mut dyn FnMut()) };
    job();
    null_mut()
}
