//! What a program does where it is out of memory: it says so, and ends with status 3.

use std::alloc::{GlobalAlloc, Layout, System};

pub struct OrEnds;

// SAFETY: the system's allocator does it, and no null pointer is passed on.
unsafe impl GlobalAlloc for OrEnds {
    unsafe fn alloc(&self, layout: Layout) -> *mut u8 {
        or_ends(System.alloc(layout))
    }

    unsafe fn realloc(&self, pointer: *mut u8, layout: Layout, size: usize) -> *mut u8 {
        or_ends(System.realloc(pointer, layout, size))
    }

    unsafe fn dealloc(&self, pointer: *mut u8, layout: Layout) {
        System.dealloc(pointer, layout)
    }
}

/// Nothing of an answer is written before all of it is there.
fn or_ends(pointer: *mut u8) -> *mut u8 {
    if pointer.is_null() {
        let _ = crate::devices::Devices::new().write(b"error: out of memory\n");
        std::process::exit(3);
    }
    pointer
}
