//! The memory that this crate's programs have; a program that counts its own uses of memory, as the benchmarks do, brings another.
use std::alloc::{GlobalAlloc, Layout, System};

/// Grants no piece of memory above 64 MiB, so that a count that asks for more fails here as it would on any small machine.
pub struct Bounded;

// SAFETY: every call is handed on to the system's allocator, or answered by the null that stands for a failure.
unsafe impl GlobalAlloc for Bounded {
    unsafe fn alloc(&self, layout: Layout) -> *mut u8 {
        if layout.size() > 64 << 20 {
            return std::ptr::null_mut();
        }
        unsafe { System.alloc(layout) }
    }

    unsafe fn dealloc(&self, at: *mut u8, layout: Layout) {
        unsafe { System.dealloc(at, layout) }
    }
}
