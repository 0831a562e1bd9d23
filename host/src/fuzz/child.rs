//! Work done in a child process, so that a crash or a call that never ends is seen by its parent.

use crate::ffi::lent::map;
use std::panic::{catch_unwind, AssertUnwindSafe};
use std::slice;
use std::sync::atomic::AtomicU64;

extern "C" {
    fn alarm(seconds: u32) -> u32;
    fn fork() -> i32;
    fn waitpid(child: i32, status: *mut i32, options: i32) -> i32;
    fn _exit(code: i32) -> !;
}

/// How a child's work ended.
#[derive(Clone, Copy, Debug, PartialEq, Eq)]
pub enum Ended {
    /// It answered true.
    Well,
    /// It answered false, or panicked.
    Badly,
    /// A signal ended it.
    Signal(i32),
}

/// Does work in a child process and says how it ended.
pub fn in_child(work: impl FnOnce() -> bool) -> Ended {
    // SAFETY: this process has one thread, so the child may go on with all that it has.
    let child = unsafe { fork() };
    assert!(child >= 0, "no child process can be started");
    if child == 0 {
        let well = catch_unwind(AssertUnwindSafe(work)).unwrap_or(false);
        // SAFETY: ends the child at once; nothing of the parent's is run twice.
        unsafe { _exit(i32::from(!well)) }
    }
    ending(child)
}

/// Waits for a child and says how it ended.
fn ending(child: i32) -> Ended {
    let mut status = 0;
    // SAFETY: the child is this process's own; its status is one number.
    let waited = unsafe { waitpid(child, &mut status, 0) };
    assert!(waited == child, "the child process cannot be waited for");
    match (status & 0x7f, status >> 8) {
        (0, 0) => Ended::Well,
        (0, _) => Ended::Badly,
        (signal, _) => Ended::Signal(signal),
    }
}

/// Lets a signal end this process after so many seconds, counted anew at each call.
pub fn end_after(seconds: u32) {
    // SAFETY: touches no memory.
    unsafe { alarm(seconds) };
}

/// Numbers, all 0 at first, that this process shares with its children.
pub fn shared_numbers(count: usize) -> &'static [AtomicU64] {
    let at = map(count * size_of::<AtomicU64>());
    // SAFETY: new memory of zeros, never given back; the numbers are only used as atomic ones.
    unsafe { slice::from_raw_parts(at.cast(), count) }
}
