//! Room for more bytes than there is memory for.

use super::lent::{map, mmap, mremap, unmap, MAP_ANONYMOUS, MREMAP_MAYMOVE, PROT_READ, PROT_WRITE};
use std::ptr::null_mut;
use std::slice;

/// The bytes of memory that a folded room has again and again.
pub const FOLD: usize = 1 << 21;

const MAP_PRIVATE: i32 = 2;
const MAP_NORESERVE: i32 = 0x4000;
const MREMAP_FIXED: i32 = 2;

/// A vast room.
pub struct Vast {
    whole: *mut u8,
    bytes: usize,
}

impl Vast {
    /// Room for so many bytes, all 0, of which a few can be written: memory is taken where they are.
    pub fn sparse(bytes: usize) -> Vast {
        let flags = MAP_PRIVATE | MAP_ANONYMOUS | MAP_NORESERVE;
        let prot = PROT_READ | PROT_WRITE;
        // SAFETY: a new mapping.
        let whole = unsafe { mmap(null_mut(), bytes, prot, flags, -1, 0) };
        assert!(whole as isize != -1, "no room so vast");
        Vast {
            whole: whole.cast(),
            bytes,
        }
    }

    /// Room for at least so many bytes that can all be written: the first fold and the last are memory of their own,
    /// those between them are the same memory again and again.
    pub fn folded(least: usize) -> Vast {
        let bytes = least.next_multiple_of(FOLD).max(3 * FOLD);
        let vast = Vast::sparse(bytes);
        for at in (0..bytes).step_by(FOLD) {
            match at {
                0 | FOLD => vast.put(map(FOLD), FOLD, at),
                _ if at + FOLD == bytes => vast.put(map(FOLD), FOLD, at),
                // SAFETY: within the mapping.
                _ => vast.put(unsafe { vast.whole.add(FOLD) }, 0, at),
            }
        }
        vast
    }

    /// Puts a fold of memory at this place: moved there by its old length, or as a second way to it where that is 0.
    fn put(&self, from: *mut u8, old: usize, at: usize) {
        let flags = MREMAP_MAYMOVE | MREMAP_FIXED;
        // SAFETY: the place is within this mapping, and nothing borrows it yet.
        let to = unsafe { mremap(from.cast(), old, FOLD, flags, self.whole.add(at)) };
        assert!(to as isize != -1, "no memory can be put there");
    }

    /// Fills all memory that a folded room has with this byte.
    pub fn fill(&mut self, value: u8) {
        for at in [0, FOLD, self.bytes - FOLD] {
            self.part(at, FOLD).fill(value);
        }
    }

    /// So many bytes from this place on.
    pub fn part(&mut self, at: usize, count: usize) -> &mut [u8] {
        assert!(at + count <= self.bytes, "more than the room");
        // SAFETY: within the mapping, and the borrow is the only one.
        unsafe { slice::from_raw_parts_mut(self.whole.add(at), count) }
    }

    /// Where it begins.
    pub fn at(&self) -> *mut u8 {
        self.whole
    }
}

impl Drop for Vast {
    /// Gives the memory back.
    fn drop(&mut self) {
        unmap(self.whole, self.bytes);
    }
}
