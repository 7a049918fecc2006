//! The device's bytes, handed to the Rust without a copy.

use std::{
    alloc::{GlobalAlloc, Layout, System},
    sync::atomic::{AtomicPtr, Ordering},
};

/// The device's bytes. The Rust takes a vector and drops it after each TD; what it is given here is made of the same lent
/// bytes each time, and its drop frees nothing, so that neither is on the Rust's account.
#[derive(Debug)]
pub struct LentData {
    start: *mut u8,
    length: usize,
}

// SAFETY: the bench has one thread.
unsafe impl Send for LentData {}

impl LentData {
    pub fn new(data: &'static [u8]) -> Self {
        LENT.store(data.as_ptr() as *mut u8, Ordering::Relaxed);
        Self { start: data.as_ptr() as *mut u8, length: data.len() }
    }

    pub fn hand_over(&self) -> Vec<u8> {
        // SAFETY: `LendingAllocator` does not free these bytes, and nothing writes through the vector.
        unsafe { Vec::from_raw_parts(self.start, self.length, self.length) }
    }
}

static LENT: AtomicPtr<u8> = AtomicPtr::new(std::ptr::null_mut());

/// The system's allocator, but for the lent bytes, which are never freed.
pub struct LendingAllocator;

// SAFETY: the system's, with fewer frees.
unsafe impl GlobalAlloc for LendingAllocator {
    unsafe fn alloc(&self, layout: Layout) -> *mut u8 {
        unsafe { System.alloc(layout) }
    }

    unsafe fn dealloc(&self, start: *mut u8, layout: Layout) {
        if start != LENT.load(Ordering::Relaxed) {
            unsafe { System.dealloc(start, layout) }
        }
    }

    unsafe fn realloc(&self, start: *mut u8, layout: Layout, new_size: usize) -> *mut u8 {
        unsafe { System.realloc(start, layout, new_size) }
    }
}
