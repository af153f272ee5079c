//! The heap, which the program has: all memory of the library comes from there.
use std::alloc::{GlobalAlloc, Layout};
use std::ffi::c_void;
use std::ptr;

/// A block, or a refusal.
#[repr(C)]
pub(crate) struct Block {
    pub(crate) ok: u8,
    pub(crate) at: *mut c_void,
}

extern "C" {
    fn pardz_alloc(size: usize, align: usize) -> Block;
    fn pardz_realloc(at: *mut c_void, kept: usize, size: usize, align: usize) -> Block;
    fn pardz_dealloc(at: *mut c_void);
}

/// The program's heap. (A test has no program, and what the explorer runs has another heap.)
struct Heap;

#[cfg_attr(not(any(test, pardz_explore)), global_allocator)]
#[cfg_attr(any(test, pardz_explore), allow(dead_code))]
static HEAP: Heap = Heap;

/// The most that the program's heap aligns a block to. Each block is aligned so, as it may have an object of the program's.
const MOST_ALIGN: usize = 16;

/// As Rust has it: null where it was refused.
fn told(block: Block) -> *mut u8 {
    if block.ok == 1 {
        block.at.cast()
    } else {
        ptr::null_mut()
    }
}

/// A block that is aligned to more: it stands within a larger one, whose address stands in front of it.
///
/// # Safety
///
/// As of `GlobalAlloc::alloc`.
#[cold]
unsafe fn alloc_within(layout: Layout) -> *mut u8 {
    let Some(size) = layout.size().checked_add(layout.align()) else {
        return ptr::null_mut();
    };
    // SAFETY: the program has it, and it asks for nothing.
    let outer = told(unsafe { pardz_alloc(size, MOST_ALIGN) });
    if outer.is_null() {
        return outer;
    }
    // SAFETY: the outer block is aligned to 16, so 16 bytes at least and `align` at most are in front of the inner one, which fits behind them.
    unsafe {
        let inner = outer.add(layout.align() - outer as usize % layout.align());
        inner.cast::<*mut u8>().sub(1).write(outer);
        inner
    }
}

// SAFETY: the header asks of the program's heap what is asked here.
unsafe impl GlobalAlloc for Heap {
    #[inline]
    unsafe fn alloc(&self, layout: Layout) -> *mut u8 {
        if layout.align() > MOST_ALIGN {
            // SAFETY: asked of whoever calls.
            return unsafe { alloc_within(layout) };
        }
        // SAFETY: the program has it, and it asks for nothing.
        told(unsafe { pardz_alloc(layout.size(), MOST_ALIGN) })
    }

    #[inline]
    unsafe fn dealloc(&self, at: *mut u8, layout: Layout) {
        let outer = match layout.align() > MOST_ALIGN {
            // SAFETY: `alloc_within` wrote it there.
            true => unsafe { at.cast::<*mut u8>().sub(1).read() },
            false => at,
        };
        // SAFETY: it is a block of this heap, which nobody uses any more.
        unsafe { pardz_dealloc(outer.cast()) };
    }

    #[inline]
    unsafe fn realloc(&self, at: *mut u8, layout: Layout, size: usize) -> *mut u8 {
        let kept = layout.size().min(size);
        if layout.align() > MOST_ALIGN {
            // (No row of such values grows.)
            return ptr::null_mut();
        }
        // SAFETY: it is a block of this heap, with so many bytes.
        told(unsafe { pardz_realloc(at.cast(), kept, size, MOST_ALIGN) })
    }
}
