//! The reader.

use crate::answers::Reading;

extern "C" {
    pub fn drumbook_read(
        plan: *const u8,
        plan_len: usize,
        run: *const u8,
        run_len: usize,
        held: *mut u32,
        held_len: usize,
        tree: *mut u16,
        tree_len: usize,
    ) -> Reading;
}

/// What the proved library answers to a run under a plan, and leaves in both buffers.
#[inline]
pub fn read(plan: &[u8], run: &[u8], held: &mut [u32], tree: &mut [u16]) -> Reading {
    // SAFETY: the pointers and lengths are those of slices; those to write do not overlap any other.
    unsafe {
        drumbook_read(
            plan.as_ptr(),
            plan.len(),
            run.as_ptr(),
            run.len(),
            held.as_mut_ptr(),
            held.len(),
            tree.as_mut_ptr(),
            tree.len(),
        )
    }
}
