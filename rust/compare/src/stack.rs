//! How much stack a job takes.
//!
//! The job runs in a thread whose stack is memory of our own, painted before.
//! After the thread has ended the lowest byte that has changed tells how far
//! down it went. For x86-64 Linux with glibc.

pub mod cases;
mod checkpoints;
mod questions;
pub mod table;

use std::ffi::{c_int, c_void};
use std::hint::black_box;
use std::ptr;

/// Bytes of the stack that a job runs on.
pub const STACK: usize = 1 << 20;
/// Bytes below it that cannot be touched: a job that needs more stack ends
/// the program.
const GUARD: usize = 1 << 16;
const WHOLE: usize = GUARD + STACK;

/// Two paints with no bit in common: of whatever is written, each byte differs
/// from one of them.
const PAINTS: [u8; 2] = [0xa5, 0x5a];

const NO_ACCESS: c_int = 0;
const READ_AND_WRITE: c_int = 1 | 2;
const PRIVATE_AND_ANONYMOUS: c_int = 0x02 | 0x20;

/// `pthread_attr_t`.
#[repr(C)]
struct Attributes([u64; 7]);

type Start = extern "C" fn(*mut c_void) -> *mut c_void;

extern "C" {
    fn mmap(
        address: *mut c_void,
        length: usize,
        protection: c_int,
        flags: c_int,
        file: c_int,
        offset: i64,
    ) -> *mut c_void;
    fn mprotect(address: *mut c_void, length: usize, protection: c_int) -> c_int;
    fn munmap(address: *mut c_void, length: usize) -> c_int;
    fn pthread_attr_init(attributes: *mut Attributes) -> c_int;
    fn pthread_attr_setstack(
        attributes: *mut Attributes,
        lowest: *mut c_void,
        size: usize,
    ) -> c_int;
    fn pthread_attr_destroy(attributes: *mut Attributes) -> c_int;
    fn pthread_create(
        thread: *mut usize,
        attributes: *const Attributes,
        start: Start,
        argument: *mut c_void,
    ) -> c_int;
    fn pthread_join(thread: usize, value: *mut *mut c_void) -> c_int;
}

/// A job; a pointer to it is one number, which a thread can be handed.
type Job<'j> = &'j mut (dyn FnMut() + Send);

/// Bytes above the job: the thread's own start and end stay among them.
const ROOM: usize = 1 << 13;

/// The first function of the thread.
extern "C" fn start(job: *mut c_void) -> *mut c_void {
    let room = black_box([0_u8; ROOM]);
    // SAFETY: `run` hands over a job of its own, and waits for the thread.
    let job = unsafe { &mut *job.cast::<Job>() };
    job();
    black_box(&room);
    ptr::null_mut()
}

/// The system must not report an error.
fn done(error: c_int) {
    assert_eq!(error, 0, "an error of the system");
}

/// Memory for the stack of one thread at a time.
pub struct Stack {
    /// The lowest byte of the guard.
    memory: *mut u8,
    /// Bytes that a thread takes with nothing to do.
    empty: usize,
}

impl Stack {
    pub fn new() -> Stack {
        // SAFETY: new pages, of which the lowest ones become the guard.
        let memory = unsafe {
            let (access, flags) = (READ_AND_WRITE, PRIVATE_AND_ANONYMOUS);
            let memory = mmap(ptr::null_mut(), WHOLE, access, flags, -1, 0);
            assert!(memory as isize != -1, "no memory for a stack");
            done(mprotect(memory, GUARD, NO_ACCESS));
            memory.cast::<u8>()
        };
        let mut stack = Stack { memory, empty: 0 };
        stack.empty = stack.taken_by_thread(&mut || {});
        stack
    }

    /// Bytes of stack that the job takes. It is run three times, and must do
    /// the same each time.
    pub fn taken(&mut self, mut job: impl FnMut() + Send) -> usize {
        // What is done at a first time only is done before.
        self.run(&mut job);
        self.taken_by_thread(&mut job) - self.empty
    }

    /// Bytes that a thread with the job takes, its own start included.
    fn taken_by_thread(&mut self, job: Job) -> usize {
        let depths = PAINTS.map(|paint| {
            self.bytes().fill(paint);
            self.run(job);
            let bytes = self.bytes();
            let lowest = bytes.iter().position(|byte| *byte != paint);
            lowest.map_or(0, |lowest| bytes.len() - lowest)
        });
        depths[0].max(depths[1])
    }

    /// The bytes of the stack, lowest first.
    fn bytes(&mut self) -> &mut [u8] {
        // SAFETY: the pages above the guard; no thread runs on them, since
        // `run` waits for its thread.
        unsafe { std::slice::from_raw_parts_mut(self.memory.add(GUARD), STACK) }
    }

    /// Runs the job in a thread on this stack.
    fn run(&mut self, mut job: Job) {
        let argument = ptr::from_mut(&mut job).cast();
        let (mut attributes, mut thread) = (Attributes([0; 7]), 0);
        // SAFETY: the stack is ours, no other thread runs on it, and the job
        // lives until the thread is joined.
        unsafe {
            let lowest = self.memory.add(GUARD).cast();
            done(pthread_attr_init(&mut attributes));
            done(pthread_attr_setstack(&mut attributes, lowest, STACK));
            done(pthread_create(&mut thread, &attributes, start, argument));
            done(pthread_join(thread, ptr::null_mut()));
            done(pthread_attr_destroy(&mut attributes));
        }
    }
}

impl Default for Stack {
    fn default() -> Stack {
        Stack::new()
    }
}

impl Drop for Stack {
    fn drop(&mut self) {
        // SAFETY: the pages that `new` got, which nothing refers to any more.
        unsafe { munmap(self.memory.cast(), WHOLE) };
    }
}
