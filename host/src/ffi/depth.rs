//! The parts that a book's readings hold.

use crate::answers::Depth;

extern "C" {
    pub fn drumbook_greatest(book: *const u8, book_len: usize) -> Depth;

    pub fn drumbook_profile(book: *const u8, book_len: usize, slots: u32) -> Depth;
}

/// What the proved library answers of the parts that a book's readings hold.
pub fn greatest(book: &[u8]) -> Depth {
    // SAFETY: the pointer and the length are those of a slice, which is only read.
    unsafe { drumbook_greatest(book.as_ptr(), book.len()) }
}

/// What the proved library answers of a book for a controller of so many slots.
pub fn profile(book: &[u8], slots: u32) -> Depth {
    // SAFETY: the pointer and the length are those of a slice, which is only read.
    unsafe { drumbook_profile(book.as_ptr(), book.len(), slots) }
}
