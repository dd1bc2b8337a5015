//! Lent memory that notices a step past its end: each buffer ends where a page
//! begins that may not be touched.

use json_patch::Node;
use std::ffi::c_void;
use std::marker::PhantomData;
use std::{ptr, slice};

const PAGE: usize = 4096;
const PROT_NONE: i32 = 0;
const PROT_READ_WRITE: i32 = 3;
const MAP_PRIVATE_ANONYMOUS: i32 = 0x22;

extern "C" {
    fn mmap(at: *mut c_void, size: usize, prot: i32, flags: i32, fd: i32, off: i64) -> *mut c_void;
    fn mprotect(at: *mut c_void, size: usize, prot: i32) -> i32;
    fn munmap(at: *mut c_void, size: usize) -> i32;
}

/// Room for items of plain numbers, right before a forbidden page.
pub struct Arena<T> {
    start: *mut u8,
    size: usize,
    items: PhantomData<T>,
}

/// The plain numbers, and records of them, that an arena may hold.
pub trait Plain: Copy {}

impl Plain for u8 {}
impl Plain for u16 {}
impl Plain for Node {}

impl<T: Plain> Arena<T> {
    /// Room for so many items, all zero.
    pub fn new(items: usize) -> Self {
        let size = (items * size_of::<T>()).next_multiple_of(PAGE).max(PAGE);
        // Safety: a fresh mapping, whose last page is then taken away.
        let start = unsafe {
            let start =
                mmap(ptr::null_mut(), size + PAGE, PROT_READ_WRITE, MAP_PRIVATE_ANONYMOUS, -1, 0);
            assert!(start as isize != -1, "no memory");
            assert_eq!(mprotect(start.add(size), PAGE, PROT_NONE), 0);
            start.cast::<u8>()
        };
        Arena { start, size, items: PhantomData }
    }

    /// The last items.
    pub fn last(&mut self, items: usize) -> &mut [T] {
        let bytes = items * size_of::<T>();
        assert!(bytes <= self.size);
        // Safety: within the mapping, aligned since a page is, and any bits are a number.
        unsafe { slice::from_raw_parts_mut(self.start.add(self.size - bytes).cast::<T>(), items) }
    }
}

impl<T> Drop for Arena<T> {
    fn drop(&mut self) {
        // Safety: the mapping made above, which nothing borrows any more.
        unsafe {
            munmap(self.start.cast(), self.size + PAGE);
        }
    }
}
