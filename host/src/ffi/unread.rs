//! The run of a tree.

use crate::answers::Written;

extern "C" {
    pub fn drumbook_unread(
        book: *const u8,
        book_len: usize,
        tree: *const u16,
        tree_len: usize,
        run: *mut u8,
        run_len: usize,
    ) -> Written;
}

/// What the proved library answers to a tree of a book, and leaves in the run.
#[inline]
pub fn unread(book: &[u8], tree: &[u16], run: &mut [u8]) -> Written {
    // SAFETY: the pointers and lengths are those of slices, of which only one can be written.
    unsafe {
        drumbook_unread(
            book.as_ptr(),
            book.len(),
            tree.as_ptr(),
            tree.len(),
            run.as_mut_ptr(),
            run.len(),
        )
    }
}
