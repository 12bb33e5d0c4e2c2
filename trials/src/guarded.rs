// Memory between pages that nobody may touch. A slice lies at either end of it, so that a read or a write
// past that end faults.
use std::ffi::{c_int, c_void};
use std::ops::{Deref, DerefMut};
use std::slice;

extern "C" {
    fn mmap(
        at: *mut c_void,
        length: usize,
        prot: c_int,
        flags: c_int,
        file: c_int,
        offset: i64,
    ) -> *mut c_void;
    fn mprotect(at: *mut c_void, length: usize, prot: c_int) -> c_int;
    fn munmap(at: *mut c_void, length: usize) -> c_int;
}

const NONE: c_int = 0;
const READ_AND_WRITE: c_int = 3;
/// Private, anonymous, no swap set aside (Linux).
const FLAGS: c_int = 0x4022;
/// A multiple of every page size in use.
const PAGE: usize = 65_536;

/// A number of a table: every pattern of bits is one.
pub trait Word: Copy {
    fn bits(self) -> u64;
    fn of(bits: u64) -> Self;
}

impl Word for u64 {
    fn bits(self) -> u64 {
        self
    }
    fn of(bits: u64) -> u64 {
        bits
    }
}

impl Word for f64 {
    fn bits(self) -> u64 {
        self.to_bits()
    }
    fn of(bits: u64) -> f64 {
        f64::from_bits(bits)
    }
}

impl Word for u8 {
    fn bits(self) -> u64 {
        self.into()
    }
    fn of(bits: u64) -> u8 {
        bits as u8
    }
}

/// Which end of the memory a slice touches.
#[derive(Clone, Copy)]
pub enum Side {
    Low,
    High,
}

pub struct Guarded<T> {
    /// The mapping: a page, the memory, a page.
    mapping: *mut u8,
    memory: usize,
    first: *mut T,
    length: usize,
}

impl<T: Word> Guarded<T> {
    /// Memory for slices up to this length, and an empty one in it.
    pub fn new(most: usize) -> Guarded<T> {
        let memory = (most * size_of::<T>()).next_multiple_of(PAGE);
        let all = memory + 2 * PAGE;
        // Sound: a new mapping of its own, of which only the middle is ever used.
        let mapping = unsafe { mmap(std::ptr::null_mut(), all, NONE, FLAGS, -1, 0) };
        assert!(mapping as isize != -1, "no memory");
        let opened = unsafe { mprotect(mapping.add(PAGE), memory, READ_AND_WRITE) };
        assert!(opened == 0, "no memory");
        let mapping = mapping.cast::<u8>();
        let mut new = Guarded { mapping, memory, first: std::ptr::null_mut(), length: 0 };
        new.place(0, Side::High);
        new
    }

    /// Makes it a slice of this length at one end, with whatever lies there.
    pub fn place(&mut self, length: usize, side: Side) {
        let bytes = length * size_of::<T>();
        assert!(bytes <= self.memory, "a slice longer than its memory");
        let offset = match side {
            Side::Low => 0,
            Side::High => self.memory - bytes,
        };
        // Sound: within the mapping, and aligned, since the ends and the elements' sizes are.
        self.first = unsafe { self.mapping.add(PAGE + offset) }.cast();
        self.length = length;
    }
}

impl<T> Deref for Guarded<T> {
    type Target = [T];
    fn deref(&self) -> &[T] {
        // Sound: `place` saw to it that the slice lies in the memory; new memory is zero.
        unsafe { slice::from_raw_parts(self.first, self.length) }
    }
}

impl<T> DerefMut for Guarded<T> {
    fn deref_mut(&mut self) -> &mut [T] {
        // Sound: as above, and nothing else points into it.
        unsafe { slice::from_raw_parts_mut(self.first, self.length) }
    }
}

impl<T> Drop for Guarded<T> {
    fn drop(&mut self) {
        // Sound: the mapping is this one's own, and no slice of it outlives it.
        unsafe { munmap(self.mapping.cast(), self.memory + 2 * PAGE) };
    }
}
