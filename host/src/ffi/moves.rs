//! The moves between the two forms of a book, and the look-up of a name.

use crate::answers::{Part, Written};

extern "C" {
    pub fn drumbook_forward(
        book: *const u8,
        book_len: usize,
        house: *const u8,
        house_len: usize,
        out: *mut u8,
        out_len: usize,
    ) -> Written;

    pub fn drumbook_back(
        book: *const u8,
        book_len: usize,
        house: *const u8,
        house_len: usize,
        out: *mut u8,
        out_len: usize,
    ) -> Written;

    pub fn drumbook_name(
        book: *const u8,
        book_len: usize,
        house: *const u8,
        house_len: usize,
        kind: u32,
    ) -> Part;
}
