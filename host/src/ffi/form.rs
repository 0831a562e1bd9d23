//! The form test.

use crate::answers::Formed;

extern "C" {
    pub fn drumbook_form(book: *const u8, book_len: usize) -> Formed;
}

/// What the proved library says of the form of a book.
#[inline]
pub fn form(book: &[u8]) -> Formed {
    // SAFETY: the pointer and the length are those of a slice.
    unsafe { drumbook_form(book.as_ptr(), book.len()) }
}
