//! Memory between two pages that nobody may touch.

use std::ffi::c_void;
use std::marker::PhantomData;
use std::mem::size_of;
use std::ptr::null_mut;
use std::slice;

/// How many numbers beside a lent part are watched.
const BESIDE: usize = 64;

const PAGE: usize = 4096;
const PROT_NONE: i32 = 0;
pub(super) const PROT_READ: i32 = 1;
pub(super) const PROT_WRITE: i32 = 2;
const MAP_SHARED: i32 = 1;
pub(super) const MAP_ANONYMOUS: i32 = 32;
pub(super) const MREMAP_MAYMOVE: i32 = 1;

extern "C" {
    pub(super) fn mmap(
        at: *mut c_void,
        len: usize,
        prot: i32,
        flags: i32,
        fd: i32,
        offset: i64,
    ) -> *mut c_void;
    pub(super) fn mremap(
        at: *mut c_void,
        old_len: usize,
        len: usize,
        flags: i32,
        ...
    ) -> *mut c_void;
    fn mprotect(at: *mut c_void, len: usize, prot: i32) -> i32;
    fn munmap(at: *mut c_void, len: usize) -> i32;
}

/// Where a lent part lies: from the page before it on, or up to the page after it.
#[derive(Clone, Copy, Debug, PartialEq, Eq)]
pub enum Edge {
    Begin,
    End,
}

/// Pages with one before them and one after them that nobody may touch.
struct Pages {
    whole: *mut u8,
    bytes: usize,
}

impl Pages {
    /// Pages for at least so many bytes.
    fn new(least: usize) -> Pages {
        let bytes = least.next_multiple_of(PAGE);
        let whole = map(bytes + 2 * PAGE);
        let pages = Pages { whole, bytes };
        pages.protect(0, PAGE, PROT_NONE);
        pages.protect(PAGE + bytes, PAGE, PROT_NONE);
        pages
    }

    /// Where the part of this many bytes at an edge begins, counted from the first byte that may be touched.
    fn offset(&self, bytes: usize, edge: Edge) -> usize {
        assert!(bytes <= self.bytes, "more than the room that is lent");
        match edge {
            Edge::Begin => 0,
            Edge::End => self.bytes - bytes,
        }
    }

    /// Where the part of this many bytes at an edge begins.
    fn at(&self, bytes: usize, edge: Edge) -> *mut u8 {
        // SAFETY: the offset lies within the mapping.
        unsafe { self.whole.add(PAGE + self.offset(bytes, edge)) }
    }

    /// Says what may be done with some of the pages.
    fn protect(&self, offset: usize, bytes: usize, prot: i32) {
        // SAFETY: the range is part of this mapping.
        let failed = unsafe { mprotect(self.whole.add(offset).cast(), bytes, prot) };
        assert!(failed == 0, "the pages cannot be protected");
    }
}

impl Drop for Pages {
    /// Gives the memory back.
    fn drop(&mut self) {
        unmap(self.whole, self.bytes + 2 * PAGE);
    }
}

/// Room for bytes that can only be read where they are lent; they are put there by another way to the same memory.
pub struct Sealed {
    pages: Pages,
    way_in: *mut u8,
}

impl Sealed {
    /// Room for at least this many bytes.
    pub fn new(most: usize) -> Sealed {
        let pages = Pages::new(most.max(1));
        let inner = pages.at(pages.bytes, Edge::Begin);
        // SAFETY: an old length of 0 maps the shared pages a second time.
        let way_in = unsafe { mremap(inner.cast(), 0, pages.bytes, MREMAP_MAYMOVE) };
        assert!(way_in as isize != -1, "no second way to the memory");
        pages.protect(PAGE, pages.bytes, PROT_READ);
        let way_in = way_in.cast();
        Sealed { pages, way_in }
    }

    /// Puts these bytes at an edge.
    pub fn put(&mut self, bytes: &[u8], edge: Edge) -> &[u8] {
        let offset = self.pages.offset(bytes.len(), edge);
        // SAFETY: both ways lead to the same open pages, and nothing borrows them now.
        unsafe {
            let to = self.way_in.add(offset);
            to.copy_from_nonoverlapping(bytes.as_ptr(), bytes.len());
            slice::from_raw_parts(self.pages.at(bytes.len(), edge), bytes.len())
        }
    }
}

impl Drop for Sealed {
    /// Gives the second way back; the pages give themselves back.
    fn drop(&mut self) {
        unmap(self.way_in, self.pages.bytes);
    }
}

/// Room for numbers that is lent to be written.
pub struct Lent<T> {
    pages: Pages,
    numbers: PhantomData<T>,
}

impl<T: Copy + PartialEq> Lent<T> {
    /// Room for at least this many numbers, and those beside them.
    pub fn new(most: usize) -> Lent<T> {
        Lent {
            pages: Pages::new((most + BESIDE) * size_of::<T>()),
            numbers: PhantomData,
        }
    }

    /// Lends a part of this many numbers at an edge, filled with garbage as those beside it are.
    pub fn lend(&mut self, garbage: T, count: usize, edge: Edge) -> &mut [T] {
        self.part(count + BESIDE, edge).fill(garbage);
        self.part(count, edge)
    }

    /// Whether the numbers beside a lent part are still the garbage that was put there.
    pub fn kept_beside(&mut self, garbage: T, count: usize, edge: Edge) -> bool {
        let whole = self.part(count + BESIDE, edge);
        let beside = match edge {
            Edge::Begin => &whole[count..],
            Edge::End => &whole[..BESIDE],
        };
        beside.iter().all(|&number| number == garbage)
    }

    /// The part of this many numbers at an edge.
    pub fn part(&mut self, count: usize, edge: Edge) -> &mut [T] {
        let at = self.pages.at(count * size_of::<T>(), edge);
        // SAFETY: the part lies within the open pages, every bit pattern is a number, and the borrow is the only one.
        unsafe { slice::from_raw_parts_mut(at.cast(), count) }
    }
}

/// New memory of zeros, shared with child processes.
pub fn map(bytes: usize) -> *mut u8 {
    let flags = MAP_SHARED | MAP_ANONYMOUS;
    // SAFETY: a new mapping.
    let at = unsafe { mmap(null_mut(), bytes, PROT_READ | PROT_WRITE, flags, -1, 0) };
    assert!(at as isize != -1, "no memory to lend");
    at.cast()
}

/// Gives memory back.
pub(super) fn unmap(at: *mut u8, bytes: usize) {
    // SAFETY: the memory's owner is dropped, so nothing borrows it any more.
    unsafe { munmap(at.cast(), bytes) };
}
