//! The compiler.

use crate::answers::Compiled;

extern "C" {
    pub fn drumbook_compile(
        book: *const u8,
        book_len: usize,
        plan: *mut u8,
        plan_len: usize,
    ) -> Compiled;
}

/// What the proved library answers to a book, and leaves in the plan buffer.
#[inline]
pub fn compile(book: &[u8], plan: &mut [u8]) -> Compiled {
    // SAFETY: the pointers and lengths are those of slices, of which only one can be written.
    unsafe { drumbook_compile(book.as_ptr(), book.len(), plan.as_mut_ptr(), plan.len()) }
}
