//! Memory whose last element is followed directly by a page that may not be touched: one element too far ends the program (SIGSEGV).

use crate::Pending;
use std::ffi::{c_int, c_void};
use std::ops::{Deref, DerefMut};

extern "C" {
    fn mmap(address: *mut c_void, length: usize, protection: c_int, flags: c_int, file: c_int, offset: i64) -> *mut c_void;
    fn mprotect(address: *mut c_void, length: usize, protection: c_int) -> c_int;
    fn munmap(address: *mut c_void, length: usize) -> c_int;
    fn getpagesize() -> c_int;
}

const PROT_NONE: c_int = 0;
const PROT_READ_WRITE: c_int = 1 | 2;
const MAP_PRIVATE_ANONYMOUS: c_int = 2 | 0x20;

/// Elements that may be lent.
///
/// # Safety
/// Every pattern of bits is a value, and a page's size is a multiple of the alignment.
pub unsafe trait Plain: Copy {}
unsafe impl Plain for u8 {}
unsafe impl Plain for u16 {}
unsafe impl Plain for u64 {}
unsafe impl Plain for Pending {}

/// A page that may not be touched, pages of memory, a page that may not be touched. The elements end where the last page begins;
/// those of none begin there.
pub struct Guarded<T: Plain> {
    mapping: *mut u8,
    mapped: usize,
    end: *mut T,
    count: usize,
}

impl<T: Plain> Guarded<T> {
    /// `count` elements of zero bits.
    pub fn new(count: usize) -> Guarded<T> {
        // SAFETY: asks for fresh pages; the two outermost are closed, and `end` is the start of the last one.
        unsafe {
            let page = getpagesize() as usize;
            let open = (count * size_of::<T>()).next_multiple_of(page);
            let mapped = open + 2 * page;
            let mapping = mmap(std::ptr::null_mut(), mapped, PROT_NONE, MAP_PRIVATE_ANONYMOUS, -1, 0);
            assert!(mapping as isize != -1, "no memory");
            let first = mapping.cast::<u8>().add(page);
            assert!(open == 0 || mprotect(first.cast(), open, PROT_READ_WRITE) == 0, "no access to fresh memory");
            Guarded { mapping: mapping.cast(), mapped, end: first.add(open).cast(), count }
        }
    }

    /// Elements that are these.
    pub fn holding(elements: &[T]) -> Guarded<T> {
        let mut held = Guarded::new(elements.len());
        held.copy_from_slice(elements);
        held
    }

    /// The last `count` elements, up to the closed page.
    pub fn last(&self, count: usize) -> &[T] {
        assert!(count <= self.count);
        // SAFETY: inside the open pages, aligned, initialised by the system.
        unsafe { std::slice::from_raw_parts(self.end.sub(count), count) }
    }

    /// The last `count` elements, to be written.
    pub fn last_mut(&mut self, count: usize) -> &mut [T] {
        assert!(count <= self.count);
        // SAFETY: as in `last`, and lent by `&mut self`.
        unsafe { std::slice::from_raw_parts_mut(self.end.sub(count), count) }
    }
}

impl<T: Plain> Deref for Guarded<T> {
    type Target = [T];
    fn deref(&self) -> &[T] {
        self.last(self.count)
    }
}

impl<T: Plain> DerefMut for Guarded<T> {
    fn deref_mut(&mut self) -> &mut [T] {
        self.last_mut(self.count)
    }
}

impl<T: Plain> Drop for Guarded<T> {
    fn drop(&mut self) {
        // SAFETY: the pages that `new` was given, no longer lent.
        unsafe { munmap(self.mapping.cast(), self.mapped) };
    }
}
