//! How many bytes a call asks the allocator for.

use std::alloc::{GlobalAlloc, Layout, System};
use std::cell::Cell;

thread_local! {
    /// How many bytes this thread has asked for.
    // Clippy 0.1.63 takes the macro's own constant for one of ours.
    #[allow(clippy::declare_interior_mutable_const)]
    static ASKED: Cell<usize> = const { Cell::new(0) };
}

/// The system's allocator, which counts what is asked for.
struct Counting;

// SAFETY: the system's allocator does all the work.
unsafe impl GlobalAlloc for Counting {
    unsafe fn alloc(&self, layout: Layout) -> *mut u8 {
        ASKED.with(|asked| asked.set(asked.get() + layout.size()));
        System.alloc(layout)
    }

    unsafe fn dealloc(&self, memory: *mut u8, layout: Layout) {
        System.dealloc(memory, layout);
    }
}

#[global_allocator]
static COUNTING: Counting = Counting;

/// What a call returns, and how many bytes it asks for.
pub fn counted<T>(call: impl FnOnce() -> T) -> (T, usize) {
    let before = ASKED.with(Cell::get);
    let answer = call();
    (answer, ASKED.with(Cell::get) - before)
}
