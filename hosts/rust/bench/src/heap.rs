//! How much heap is in use at most, counted only when asked, so that it does not slow what is timed.

use std::alloc::{GlobalAlloc, Layout, System};
use std::sync::atomic::{AtomicBool, AtomicUsize, Ordering::Relaxed};

struct Counting {
    is_on: AtomicBool,
    in_use: AtomicUsize,
    most: AtomicUsize,
}

#[global_allocator]
static HEAP: Counting = Counting { is_on: AtomicBool::new(false), in_use: AtomicUsize::new(0), most: AtomicUsize::new(0) };

// SAFETY: every call goes to the system's allocator unchanged
unsafe impl GlobalAlloc for Counting {
    unsafe fn alloc(&self, layout: Layout) -> *mut u8 {
        if self.is_on.load(Relaxed) {
            let in_use = self.in_use.fetch_add(layout.size(), Relaxed) + layout.size();
            self.most.fetch_max(in_use, Relaxed);
        }
        System.alloc(layout)
    }

    unsafe fn dealloc(&self, start: *mut u8, layout: Layout) {
        if self.is_on.load(Relaxed) {
            self.in_use.fetch_sub(layout.size(), Relaxed);
        }
        System.dealloc(start, layout)
    }
}

/// The most bytes that `work`, which frees what it allocates and nothing else, had in use.
pub fn most_used_by(work: impl FnOnce()) -> usize {
    HEAP.in_use.store(0, Relaxed);
    HEAP.most.store(0, Relaxed);
    HEAP.is_on.store(true, Relaxed);
    work();
    HEAP.is_on.store(false, Relaxed);
    HEAP.most.load(Relaxed)
}
