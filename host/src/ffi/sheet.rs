//! Books made of sheets.

use crate::answers::Written;

extern "C" {
    pub fn drumbook_sheet(
        sheet: *const u8,
        sheet_len: usize,
        book: *mut u8,
        book_len: usize,
    ) -> Written;

    pub fn drumbook_sheet_place(sheet: *const u8, sheet_len: usize, node: u32) -> Written;
}
