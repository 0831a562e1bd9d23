//! The drum board.

use crate::board::{Drum, Reading};

extern "C" {
    pub fn drumbook_open(
        plan: *const u8,
        plan_len: usize,
        drums: *mut Drum,
        drums_len: usize,
        drum: u32,
    ) -> Reading;

    pub fn drumbook_event(
        plan: *const u8,
        plan_len: usize,
        drums: *mut Drum,
        drums_len: usize,
        drum: u32,
        kind: u8,
    ) -> Reading;

    pub fn drumbook_close(
        plan: *const u8,
        plan_len: usize,
        drums: *mut Drum,
        drums_len: usize,
        drum: u32,
    ) -> Reading;
}

/// What the proved library answers to an opening, and leaves on the board.
#[inline]
pub fn open(plan: &[u8], drums: &mut [Drum], drum: u32) -> Reading {
    let (at, len) = (drums.as_mut_ptr(), drums.len());
    // SAFETY: the pointers and lengths are those of slices, of which only one can be written.
    unsafe { drumbook_open(plan.as_ptr(), plan.len(), at, len, drum) }
}

/// What the proved library answers to an event, and leaves on the board.
#[inline]
pub fn event(plan: &[u8], drums: &mut [Drum], drum: u32, kind: u8) -> Reading {
    let (at, len) = (drums.as_mut_ptr(), drums.len());
    // SAFETY: the pointers and lengths are those of slices, of which only one can be written.
    unsafe { drumbook_event(plan.as_ptr(), plan.len(), at, len, drum, kind) }
}

/// What the proved library answers to a closing, and leaves on the board.
#[inline]
pub fn close(plan: &[u8], drums: &mut [Drum], drum: u32) -> Reading {
    let (at, len) = (drums.as_mut_ptr(), drums.len());
    // SAFETY: the pointers and lengths are those of slices, of which only one can be written.
    unsafe { drumbook_close(plan.as_ptr(), plan.len(), at, len, drum) }
}
