//! Memory between two pages that may not be touched.

use std::ffi::c_void;

use dazolbei::raw::{Block, BLOCK_SIZE};

extern "C" {
    fn mmap(address: *mut c_void, length: usize, access: i32, flags: i32, file: i32, offset: i64) -> *mut c_void;
    fn mprotect(address: *mut c_void, length: usize, access: i32) -> i32;
}

// Linux on x86-64.
const PROT_NONE: i32 = 0;
const PROT_READ_WRITE: i32 = 3;
const MAP_PRIVATE_ANONYMOUS: i32 = 0x22;
const PAGE: usize = 4096;

pub struct Guarded {
    first: *mut u8,
    size: usize,
}

// SAFETY: nothing else points to the memory.
unsafe impl Send for Guarded {}

impl Guarded {
    pub fn new(least: usize) -> Guarded {
        let size = least.div_ceil(PAGE) * PAGE;
        // SAFETY: a new mapping, whose inner pages are then opened.
        let first = unsafe {
            let none = std::ptr::null_mut();
            let all: *mut u8 = mmap(none, size + 2 * PAGE, PROT_NONE, MAP_PRIVATE_ANONYMOUS, -1, 0).cast();
            assert_ne!(all as isize, -1, "mmap");
            let first = all.add(PAGE);
            assert_eq!(mprotect(first.cast(), size, PROT_READ_WRITE), 0, "mprotect");
            first
        };
        Guarded { first, size }
    }

    /// Where so many bytes begin, at the very end or at the very beginning.
    fn place(&mut self, length: usize, at_end: bool) -> *mut u8 {
        assert!(length <= self.size);
        // SAFETY: within the mapping.
        unsafe { self.first.add(if at_end { self.size - length } else { 0 }) }
    }

    pub fn bytes(&mut self, length: usize, at_end: bool) -> &mut [u8] {
        // SAFETY: within the mapping, whose bytes are all set.
        unsafe { std::slice::from_raw_parts_mut(self.place(length, at_end), length) }
    }

    pub fn numbers(&mut self, length: usize, at_end: bool) -> &mut [u32] {
        // SAFETY: as above; both ends of a page are aligned.
        unsafe { std::slice::from_raw_parts_mut(self.place(4 * length, at_end).cast(), length) }
    }

    pub fn block(&mut self, at_end: bool) -> &mut Block {
        // SAFETY: as above; a block takes any bytes, and its size is a multiple of its alignment.
        unsafe { &mut *self.place(BLOCK_SIZE, at_end).cast() }
    }

    /// These bytes, copied here.
    pub fn holding(&mut self, bytes: &[u8], at_end: bool) -> &[u8] {
        let here = self.bytes(bytes.len(), at_end);
        here.copy_from_slice(bytes);
        here
    }
}
