//! A sample run of a book.

use crate::answers::Written;

extern "C" {
    pub fn drumbook_sample(
        book: *const u8,
        book_len: usize,
        run: *mut u8,
        run_len: usize,
    ) -> Written;
}
