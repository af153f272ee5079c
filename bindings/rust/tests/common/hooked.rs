//! The program's allocator, with a hook at each request: as one that counts or traces has.
#![allow(dead_code)] // (Each test program takes what it needs.)
use std::alloc::{GlobalAlloc, Layout, System};
use std::cell::Cell;
use std::ptr;
use std::sync::atomic::{AtomicUsize, Ordering::SeqCst};

/// The system's memory, with a hook at each request and each free.
struct Hooked;

#[global_allocator]
static HEAP: Hooked = Hooked;

thread_local! {
    /// What the hook does on this thread, but within itself.
    pub static HOOK: Cell<fn()> = const { Cell::new(|| ()) };
    /// Whether memory is refused.
    pub static REFUSES: Cell<bool> = const { Cell::new(false) };
}

/// How often a hook did what it is there for.
pub static HOOKED: AtomicUsize = AtomicUsize::new(0);
/// How many blocks of memory there are.
pub static BLOCKS: AtomicUsize = AtomicUsize::new(0);

fn hooked() {
    fn nothing() {}
    let Ok(hook) = HOOK.try_with(|hook| hook.replace(nothing)) else {
        return;
    };
    hook();
    HOOK.set(hook);
}

// SAFETY: each block is the system's.
unsafe impl GlobalAlloc for Hooked {
    unsafe fn alloc(&self, layout: Layout) -> *mut u8 {
        hooked();
        if REFUSES.get() {
            return ptr::null_mut();
        }
        BLOCKS.fetch_add(1, SeqCst);
        // SAFETY: the caller keeps what `System` asks.
        unsafe { System.alloc(layout) }
    }

    unsafe fn alloc_zeroed(&self, layout: Layout) -> *mut u8 {
        hooked();
        if REFUSES.get() {
            return ptr::null_mut();
        }
        BLOCKS.fetch_add(1, SeqCst);
        // SAFETY: the caller keeps what `System` asks.
        unsafe { System.alloc_zeroed(layout) }
    }

    unsafe fn realloc(&self, block: *mut u8, layout: Layout, size: usize) -> *mut u8 {
        hooked();
        // SAFETY: the caller keeps what `System` asks.
        unsafe { System.realloc(block, layout, size) }
    }

    unsafe fn dealloc(&self, block: *mut u8, layout: Layout) {
        hooked();
        BLOCKS.fetch_sub(1, SeqCst);
        // SAFETY: the caller keeps what `System` asks.
        unsafe { System.dealloc(block, layout) }
    }
}
